// What the server is asked. The key stands in the address behind `#`, which no browser sends anywhere.
import {Refused, stopped} from "./refused.js";

const STORED = "pop-key";
export const family = {
  member: 0
};                            // of a family, which member is worked with
export const isStill = false; // whether nobody can be asked, as in a page without a server

function takeKey() {
  const given = location.hash.slice(1);
  if (given) {
    sessionStorage.setItem(STORED, given);
    history.replaceState(null, "", location.pathname);
  }
  return sessionStorage.getItem(STORED) || "";
}

const key = takeKey();

/** @param {string} path @param {object} value @param {AbortSignal} [signal] */
async function send(path, value, signal) {
  let answer;
  try {
    answer = await fetch(path, {
      method: "POST",
      headers: {"Content-Type": "application/json", "X-Pop-Key": key},
      body: JSON.stringify(value),
      signal,
      cache: "no-store",
      credentials: "omit",
      redirect: "error",
    });
  } catch (error) {
    if (stopped(error)) throw error;
    throw new Refused(["the server does not answer: it was ended; `bin/pop serve` starts it again"]);
  }
  if (!answer.ok) {
    /** @type {string[]} */
    let told;
    try {
      told = (await answer.json()).told;
    } catch {
      told = [`the server answers with ${answer.status}`];
    }
    throw new Refused(told, [], answer.status);
  }
  return answer;
}

/** @template {keyof Posts} P @param {P} path @param {object} value @returns {Promise<Posts[P]>} */
export async function post(path, value = {}) {
  return (await send(path, value)).json();
}

// Does a job; `on` is told each message, and the last one comes back. Refused where the job says why not.
/**
 * @template {keyof Jobs} K
 * @param {K} kind
 * @param {object} request
 * @param {{on?: (message: Messages[K]) => void, signal?: AbortSignal}} more
 * @returns {Promise<Jobs[K]>}
 */
export async function job(kind, request, {on = () => {}, signal} = {}) {
  const answer = await send("/job", {kind, member: family.member, ...request}, signal);
  if (!answer.body) throw new Refused(["the server ended the job without an answer"]);
  const reader = answer.body.pipeThrough(new TextDecoderStream()).getReader();
  /** @type {string[]} */
  let parts = [];
  for (;;) {
    const {value, done} = await reader.read();
    if (done) break;
    // (a message of many pieces is joined once)
    const cut = value.split("\n\n");
    parts.push(cut[0]);
    for (const more of cut.slice(1)) {
      const line = parts.join("");
      parts = [more];
      if (!line.startsWith("data: ")) continue;
      /** @type {{event: string, told: string[], faults?: Mark[]} & Jobs[K] & Messages[K]} */
      const last = JSON.parse(line.slice(6));
      if (last.event === "fault") throw new Refused(last.told, last.faults || []);
      if (last.event === "done") return last;
      on(last);
    }
  }
  throw new Refused(["the server ended the job without an answer"]);
}

// Whoever leaves the page ends its jobs, also where the browser keeps the page to come back to.
/** @type {Set<AbortController>} */
const going = new Set();
addEventListener("pagehide", () => going.forEach((control) => control.abort()));

// One job of a kind at a time: a new one ends the one before.
export class Slot {
  /** @param {(busy: boolean) => void} changed */
  constructor(changed = () => {}) {
    /** @type {AbortController | null} */
    this.control = null;
    this.changed = changed;
  }
  get busy() {
    return this.control !== null;
  }
  stop() {
    if (this.control) this.control.abort();
  }
  /**
   * @template {keyof Jobs} K
   * @param {K} kind
   * @param {object} request
   * @param {(message: Messages[K]) => void} [on]
   * @returns {Promise<Jobs[K]>}
   */
  async run(kind, request, on) {
    this.stop();
    const control = new AbortController();
    this.control = control;
    going.add(control);
    this.changed(true);
    try {
      const own = (/** @type {Messages[K]} */ message) => {
        if (this.control === control) on?.(message);
      };
      return await job(kind, request, {on: own, signal: control.signal});
    } finally {
      going.delete(control);
      if (this.control === control) {
        this.control = null;
        this.changed(false);
      }
    }
  }
}

/** @param {string} name @param {string} text */
export function download(name, text, type = "text/plain") {
  const link = document.createElement("a");
  link.href = URL.createObjectURL(new Blob([text], {type: `${type};charset=utf-8`}));
  link.download = name;
  link.click();
  setTimeout(() => URL.revokeObjectURL(link.href), 10_000);
}
