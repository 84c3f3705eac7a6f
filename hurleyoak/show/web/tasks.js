// The tasks of a search for a proof: how far each is, and how it ended.
import {clear, h, inside} from "./dom.js";

const TICK = 1000; // milliseconds between two looks at the clock
/** @type {Record<Task, string>} */
const TASKS = {
  "small crowds": "small crowds that go wrong",
  layers: "layers",
  true: "tree for true",
  false: "tree for false",
};

export class Tasks {
  constructor() {
    this.element = h("ul", {class: "tasks", "aria-live": "polite", hidden: true});
    /** @type {Map<string, HTMLElement>} */
    this.rows = new Map();
    /** @type {HTMLElement[]} */
    this.order = [];
    this.start = 0;
    this.seconds = 0;
    this.clock = 0;
  }

  // A search begins, which may take so many seconds.
  begin(seconds = 0) {
    this.element.hidden = true;
    this.rows.clear();
    this.order = [];
    this.start = performance.now();
    this.seconds = seconds;
  }

  /** @param {Exclude<SearchMessage, {event: "tasks"}>} message */
  take(message) {
    if (message.event === "going") {
      message.shares.forEach((share, i) => (this.order[i].dataset.share = String(share)));
      return;
    }
    const row = this.rows.get(`${message.at} ${message.task}`);
    if (!row) return;
    row.className = message.good ? "good" : "bad";
    inside(row, ".what").textContent = `${message.told}, ${message.seconds.toFixed(1)} s`;
  }

  /** @param {Extract<SearchMessage, {event: "tasks"}>} message */
  show({tasks, labels}) {
    this.order = tasks.map(([at, task]) => {
      const whole = at < 0 ? "the whole: " : `${labels[at]}: `;
      const name = h("span", {}, `${labels.length > 1 ? whole : ""}${TASKS[task]}`);
      const sign = h("span", {class: "sign", "aria-hidden": "true"});
      const row = h("li", {class: "going"}, sign, name, h("span", {class: "small what"}, "…"));
      this.rows.set(`${at} ${task}`, row);
      return row;
    });
    clear(this.element, this.order);
    this.element.hidden = false;
    this.clock = setInterval(() => this.going().forEach((row) => this.goesOn(row)), TICK);
  }

  going() {
    return [...this.rows.values()].filter((row) => row.classList.contains("going"));
  }

  // How far a task is, and how long it has gone on, of the seconds that it may take.
  /** @param {HTMLElement} row */
  goesOn(row) {
    const now = ((performance.now() - this.start) / 1000).toFixed(0);
    const share = Number(row.dataset.share || 0);
    const part = share > 0 ? `${Math.floor(100 * share)} %, ` : "";
    const far = share >= 1 ? "found, and made smaller, " : part;
    const bar = h("progress", {max: 1, value: share, "aria-label": "how far it is"});
    clear(inside(row, ".what"), bar, ` ${far}${now} s of ${this.seconds}`);
  }

  // What goes on no more was left.
  leave() {
    for (const row of this.going()) {
      row.className = "left";
      inside(row, ".what").textContent = "left";
    }
  }

  rest() {
    clearInterval(this.clock);
  }
}
