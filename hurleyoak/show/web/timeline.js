// The time line of Play: meetings one after another at a speed, forth and back.
import {MOST_MEETINGS, nobody} from "./crowd.js";
import {h} from "./dom.js";
import {s} from "./svg.js";

const FRAME = 8;   // milliseconds of a frame for meetings
const SINGLE = 30; // meetings a second up to which each is shown by itself
const SEEN = 4;    // frames between two looks at the numbers while it plays
const PASSES = "Passes over meetings in which nothing changes";
const NUMBER = new Intl.NumberFormat("en");

// Signs as drawings: not every machine has a font with them.
/** @type {Record<string, string>} */
const SIGNS = {
  start: "M2 2h2.6v12H2zM14 2v12L5.6 8z",
  back: "M13 2v12L3.5 8z",
  play: "M3.5 2v12L13 8z",
  pause: "M3 2h3.6v12H3zM9.4 2H13v12H9.4z",
  step: "M2 2v12l8.4-6zM11.4 2H14v12h-2.6z",
};

/** @param {string} name */
function sign(name) {
  return s("svg", {viewBox: "0 0 16 16", "aria-hidden": "true"}, s("path", {d: SIGNS[name]}));
}

/**
 * @param {string} name
 * @param {string} label
 * @param {() => void} call
 * @param {string} key
 */
function button(name, label, call, key) {
  const look = {type: "button", title: `${label} (${key})`, "aria-label": label};
  return h("button", {...look, onclick: call}, sign(name));
}

/**
 * `pair()` are two agents that meet next, `seen()` is told after meetings.
 * @typedef {object} Host
 * @property {() => void} restart
 * @property {() => [number, number] | null} pair
 * @property {() => void} begun
 * @property {() => void} seen
 * @property {() => void} rested
 */

export class TimeLine {
  /** @param {import("./picture.js").Picture} picture @param {Host} host */
  constructor(picture, host) {
    this.picture = picture;
    this.host = host;
    this.crowd = nobody();
    this.playing = false;
    this.due = 0; // the part of a meeting that is due
    this.frames = 0;
    this.run = button("play", "Random meetings", () => this.toggle(), "Space");
    this.run.classList.add("main");
    this.speed = h("input", {type: "range", min: 0, max: 100, value: 42, "aria-label": "Speed", title: "Speed"});
    this.speedText = h("span", {class: "small speed"});
    this.speed.addEventListener("input", () => this.showSpeed());
    const label = "Meetings so far; back and forth";
    this.time = h("input", {type: "range", min: 0, max: 0, value: 0, class: "time", "aria-label": label});
    this.time.addEventListener("input", () => {
      this.stop();
      this.go(Number(this.time.value));
    });
    this.count = h("span", {class: "small count"});
    this.only = h("input", {type: "checkbox"});
    this.bar = h(
      "div",
      {class: "transport"},
      button("start", "Start again", () => this.host.restart(), "R"),
      button("back", "Back", () => this.back(), "←"),
      this.run,
      button("step", "One meeting", () => this.step(), "→"),
      h("label", {class: "speedbox"}, h("span", {class: "small"}, "speed"), this.speed, this.speedText),
      h("label", {class: "small only", title: PASSES}, this.only, "changes only"),
    );
    this.foot = h("div", {class: "timebox"}, this.time, this.count);
    this.showSpeed();
  }

  get onlyChanges() {
    return this.only.checked;
  }

  get perSecond() {
    return 2 ** (Number(this.speed.value) / 9) * 0.5;
  }

  showSpeed() {
    const now = this.perSecond;
    this.speedText.textContent = `${now < 10 ? now.toFixed(1) : Math.round(now)}/s`;
  }

  // At most so fast.
  /** @param {number} value */
  slowTo(value) {
    this.speed.value = String(Math.min(Number(this.speed.value), value));
    this.showSpeed();
  }

  show() {
    const {at, history, agents} = this.crowd;
    const [n, all] = [agents.length, history.length];
    this.time.max = String(all);
    this.time.value = String(at);
    const many = `${NUMBER.format(at)}${at < all ? ` of ${NUMBER.format(all)}` : ""} meeting${at === 1 ? "" : "s"}`;
    this.count.textContent = n ? `${many}, ${(at / n).toPrecision(3)} for each agent` : many;
  }

  // ---- forth and back

  back() {
    this.stop();
    this.go(this.crowd.at - 1);
  }

  // To after so many meetings.
  /** @param {number} to */
  go(to) {
    this.crowd.go(to);
    this.picture.calm();
    const {last} = this.crowd;
    if (last) this.picture.flash(last[0], last[1], Boolean(last[2]));
    this.host.seen();
    this.host.rested();
  }

  // Two agents that were chosen meet.
  /** @param {number} a @param {number} b */
  meet(a, b) {
    if (this.crowd.at >= MOST_MEETINGS) return this.stop();
    this.shown([a, b, this.crowd.meet(a, b)], false);
  }

  /** @param {Met} made @param {boolean} quick */
  shown([a, b, changed], quick) {
    this.picture.ended = null;
    this.picture.flash(a, b, changed, quick);
    if (changed) [a, b].forEach((i) => this.picture.paint(i));
    if (!quick) this.picture.name();
  }

  // The next meeting, of the history or else a random one; null where there is none.
  /** @returns {Met | null} */
  next() {
    if (!this.crowd.isAtEnd) return this.crowd.advance();
    const pair = this.crowd.at < MOST_MEETINGS ? this.host.pair() : null;
    return pair && [...pair, this.crowd.meet(...pair, this.onlyChanges)];
  }

  // One meeting.
  step() {
    if (this.crowd.agents.length < 2) return;
    this.stop();
    if (!this.crowd.isAtEnd) return this.go(this.crowd.at + 1);
    const made = this.next();
    if (made) this.shown(made, false);
    this.host.seen();
    this.host.rested();
  }

  // ---- while it plays

  toggle() {
    if (this.playing) return this.stop();
    if (this.crowd.agents.length < 2) return;
    this.playing = true;
    this.host.begun();
    this.run.replaceChildren(sign("pause"));
    this.run.setAttribute("aria-label", "Stop");
    this.due = 0;
    let last = performance.now();
    const frame = (/** @type {number} */ now) => {
      if (!this.playing) return;
      this.due += ((now - last) / 1000) * this.perSecond;
      last = now;
      const due = Math.floor(this.due);
      this.due -= due;
      if (due > 0) this.made(due);
      if (this.playing) requestAnimationFrame(frame);
    };
    requestAnimationFrame(frame);
  }

  stop() {
    if (!this.playing) return;
    this.playing = false;
    this.run.replaceChildren(sign("play"));
    this.run.setAttribute("aria-label", "Random meetings");
    this.picture.name();
    this.host.seen();
    this.host.rested();
  }

  // So many meetings within a frame; numbers are shown less often than the picture.
  /** @param {number} due */
  made(due) {
    const isSingle = this.perSecond <= SINGLE;
    if (isSingle) this.singly(due);
    else this.many(due);
    if (this.playing && (isSingle || ++this.frames % SEEN === 0)) this.host.seen();
  }

  /** @param {number} due */
  singly(due) {
    for (let k = 0; k < due; k++) {
      const made = this.next();
      if (!made) return this.stop();
      this.shown(made, true);
    }
  }

  // What many meetings changed is painted once.
  /** @param {number} due */
  many(due) {
    const changed = new Set();
    const stop = performance.now() + FRAME;
    const met = [];
    for (let k = 0; k < due; k++) {
      const made = this.next();
      if (!made) break;
      met.push(made);
      if (made[2]) changed.add(made[0]).add(made[1]);
      if (k % 16 === 15 && performance.now() > stop) {
        this.due = 0;
        break;
      }
    }
    this.picture.ended = null;
    changed.forEach((i) => this.picture.paint(i));
    if (met.length) this.picture.trace(met);
    else this.stop();
  }
}
