// What `api.js` is on a page without a server: nobody is asked, and what was asked before stands in the page.
import {part} from "./dom.js";

export const isStill = true;
export const family = {
  member: 0
};
/** @type {Given} */
const answers = JSON.parse(part("data").textContent ?? "");

export function given() {
  return answers;
}

export class Slot {
  constructor() {
    this.busy = false;
  }
  stop() {}
  /** @template {keyof Jobs} K @param {K} kind @returns {Promise<Jobs[K]>} */
  async run(kind) {
    const known = answers.jobs[kind];
    if (known) return /** @type {Jobs[K]} */ (known);
    throw new Error("this page has no server to ask");
  }
}

/** @template {keyof Jobs} K @param {K} kind */
export async function job(kind) {
  return new Slot().run(kind);
}

/** @param {string} name @param {string} text */
export function download(name, text, type = "text/plain") {
  const link = document.createElement("a");
  link.href = URL.createObjectURL(new Blob([text], {type: `${type};charset=utf-8`}));
  link.download = name;
  link.click();
  setTimeout(() => URL.revokeObjectURL(link.href), 10_000);
}
