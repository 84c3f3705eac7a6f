// How a protocol's time grows: many runs over sizes, their medians as points and fits as lines.
import {badge} from "./badge.js";
import {Chart} from "./chart.js";
import {clear, h} from "./dom.js";
import {shade} from "./model.js";
import {endShown} from "./refused.js";
import {store} from "./store.js";

const RUNS = 10; // of each size
const HEAD = ["crowd", "n", "runs", "undecided", "wrong", "end: median", "95%", "agreed: median", "95%"];
const FIGURES = ["end median", "end 95%", "agreed median", "agreed 95%"];

/** @param {string[]} names */
function usualSizes([first, second, ...more]) {
  if (second === undefined) return `${first}=10..640*2`;
  return [`${first}=10..640*2`, `${second}=${first}/4`, ...more.map((name) => `${name}=0`)].join(" ");
}

/** @param {number | null} value */
function figure(value) {
  if (value === null) return "–";
  return value >= 100 ? Math.round(value).toLocaleString("en") : value.toPrecision(3);
}

/** @param {number} part */
function percent(part) {
  return `${Math.round(part * 100)}%`;
}

/** @param {SizeRow[]} rows */
function table(rows) {
  const cells = (/** @type {SizeRow} */ row) => {
    const wrong = row.wrong === null ? "-" : percent(row.wrong);
    const figures = FIGURES.map((name) => figure(row.figures[name]));
    return [row.crowd, row.n, row.runs, percent(row.undecided), wrong, ...figures].map((cell) => h("td", {}, cell));
  };
  const head = HEAD.map((name) => h("th", {scope: "col"}, name));
  const body = rows.map((row) => h("tr", {}, cells(row)));
  return h("table", {class: "figures"}, h("thead", {}, h("tr", {}, head)), h("tbody", {}, body));
}

// The points of one figure over sizes, and its fit.
/**
 * @param {SizeRow[]} rows
 * @param {Fits} fits
 * @param {string} what
 * @param {string} title
 * @param {boolean} output
 */
function seriesOf(rows, fits, what, title, output) {
  const colour = shade(output, 0, 1).fill;
  /** @type {Series} */
  const medians = {name: title, colour, dots: true, points: [], bars: []};
  for (const {n, figures} of rows) {
    const [median, low, high] = ["median", "quarter", "three quarters"].map((name) => figures[`${what} ${name}`]);
    if (!median) continue;
    medians.points.push([n, median]);
    if (high) medians.bars?.push([n, low || 1, high]);
  }
  const fit = fits[what];
  return fit ? [medians, {name: fit.text, colour, dash: true, points: fit.points}] : [medians];
}

export class Growth {
  /**
   * @param {import("./api.js").Slot} slot
   * @param {HTMLElement} progress
   * @param {() => number} seed
   */
  constructor(slot, progress, seed) {
    this.slot = slot;
    this.progress = progress;
    this.seed = seed;
    this.names = "";
    this.isDrawn = false;
    this.sizes = h("input", {type: "text", class: "wide", id: "sizes", spellcheck: "false", autocomplete: "off"});
    this.runs = h("input", {type: "number", min: 1, max: 1000, value: RUNS, id: "runs", inputmode: "numeric"});
    this.repeat = h("button", {type: "button", class: "main", onclick: () => this.grow()}, "Repeat over sizes");
    this.chart = new Chart();
    this.told = h("div", {class: "outcome", "aria-live": "polite"});
    this.box = h("div", {hidden: true}, this.chart.element, this.told);
    const form = h(
      "form",
      {class: "row", onsubmit: (event) => event.preventDefault()},
      h("label", {class: "grow"}, h("span", {class: "small"}, "sizes"), this.sizes),
      h("label", {}, h("span", {class: "small"}, "runs of each"), this.runs),
      this.repeat,
    );
    this.parts = [h("h3", {}, "How it grows"), form, this.box];
  }

  /** @param {string[]} names */
  renew(names) {
    const key = names.join(" ");
    if (this.names !== key) this.sizes.value = usualSizes(names);
    this.names = key;
  }

  stale() {
    if (this.told.childElementCount) this.told.classList.add("old");
    this.chart.element.classList.toggle("old", this.isDrawn);
  }

  async grow() {
    /** @type {SizeRow[]} */
    const rows = [];
    this.isDrawn = true;
    this.box.hidden = false;
    this.chart.element.classList.remove("old");
    this.told.classList.remove("old");
    clear(this.told, h("p", {class: "small"}, "…"));
    const runs = Number(this.runs.value) || RUNS;
    const request = {text: store.text, sizes: this.sizes.value, runs, seed: this.seed()};
    try {
      const done = await this.slot.run("growth", request, (message) => {
        if (message.event === "runs") {
          this.progress.textContent = `${message.done} of ${message.all} runs`;
        } else {
          rows.push(message);
          this.show(rows, {});
        }
      });
      this.show(rows, done.fits);
      clear(
        this.told,
        badge("measured"),
        done.growths.map((line) => h("p", {}, line)),
        h("details", {}, h("summary", {}, "Table"), h("div", {class: "scroll"}, table(done.rows))),
      );
      this.told.scrollIntoView({block: "nearest"});
    } catch (error) {
      clear(this.told, endShown(error));
    }
  }

  /**
   * @param {SizeRow[]} rows
   * @param {Fits} fits
   */
  show(rows, fits) {
    const isOne = rows.every((row) => row.figures["end median"] === row.figures["agreed median"]);
    const end = seriesOf(rows, fits, "end", isOne ? "end, agreed" : "to the end", isOne);
    const series = isOne ? end : [...end, ...seriesOf(rows, fits, "agreed", "to agreement", true)];
    const names = {xName: "agents", yName: "meetings", xShort: "n ="};
    const about = "Medians of meetings over the number of agents";
    this.chart.show({series, xLog: true, yLog: true, dotted: true, ...names, about});
  }
}
