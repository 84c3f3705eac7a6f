// Behaviour: one run as a chart while it goes on, a run of the program with its journal, and many runs over sizes.
import {download, Slot} from "./api.js";
import {badge} from "./badge.js";
import {Chart} from "./chart.js";
import {seriesOf} from "./curve.js";
import {clear, h} from "./dom.js";
import {Growth} from "./growth.js";
import {endShown} from "./refused.js";
import {store} from "./store.js";

const MOST = 1_000_000_000;
const ALONE = 1000;       // agents of the one variable
const USUAL = [800, 200]; // of the first variables
const USUAL_MORE = 100;

/** @typedef {Curve & {agents: number, marks: {x: number, text: string}[]}} Run */

// What the last line of a run says.
/** @param {string} last */
function endTold(last) {
  if (last.startsWith("verdict ")) return "As the net is certified, this verdict is the predicate's value.";
  if (!last.startsWith("settled ")) return "The turns were used up before the run came to its end.";
  const stays = "Every agent outputs it for ever, though agents may go on changing.";
  return `As the net is shown stable, this is the predicate's value. ${stays}`;
}

// How a simulated run came to its end, and whether what all say there is right.
/** @param {Simulated} done */
function outcome(done) {
  const after = `after ${(done.lastChange / done.agents).toPrecision(3)} meetings for each agent`;
  const end = done.terminal ? `The crowd comes to its end ${after}` : "Stopped before the end";
  if (done.output === null) return `${end}; the agents don't agree.`;
  if (done.value === null) return `${end}; all say ${done.output}`;
  const right = done.value === done.output ? "which is the predicate's value" : `and the predicate is ${done.value}`;
  return `${end}; all say ${done.output}, ${right}.`;
}

/**
 * @param {string} name
 * @param {Record<string, string>} options
 * @param {(value: string) => void} call
 */
function choice(name, options, call) {
  const own = Object.entries(options).map(([value, text]) => h("option", {value}, text));
  return h("select", {"aria-label": name, onchange: (event) => call(event.target.value)}, own);
}

export class Behaviour {
  /** @param {HTMLElement} panel */
  constructor(panel) {
    this.panel = panel;
    this.slot = new Slot((busy) => this.busy(busy));
    /** @type {Run | null} */
    this.curve = null;
    this.by = "state";
    this.xLog = this.yLog = false;
    /** @type {[name: string, field: HTMLInputElement][]} */
    this.fields = [];
    this.counts = h("span", {class: "inputs inline"});
    this.seed = h("input", {type: "number", min: 0, value: 1, id: "seed", inputmode: "numeric"});
    this.until = h(
      "select",
      {"aria-label": "Until"},
      h("option", {value: "terminal"}, "until nothing changes"),
      h("option", {value: "agreed"}, "until all agree"),
    );
    this.start = h("button", {type: "button", class: "main", onclick: () => this.simulate()}, "Simulate");
    const told =
      "The proved program runs it, for a text with a whole proof, and gives a journal that anybody can replay";
    this.byProgram = h("button", {type: "button", onclick: () => this.run(), title: told}, "Run by the program");
    this.stop = h("button", {type: "button", onclick: () => this.slot.stop(), hidden: true}, "Stop");
    this.progress = h("span", {class: "small", role: "status"});
    this.chart = new Chart();
    this.told = h("div", {class: "outcome", "aria-live": "polite"});
    this.growth = new Growth(this.slot, this.progress, () => this.seedValue());
    this.empty = h("p", {class: "none"}, "Write a protocol on the left, or take an example from the menu.");
    const seed = h("label", {}, h("span", {class: "small"}, "seed"), this.seed);
    const buttons = [this.start, this.byProgram, this.stop];
    this.body = h(
      "div",
      {class: "behaviour", hidden: true},
      h(
        "form",
        {class: "row", onsubmit: (event) => event.preventDefault()},
        [this.counts, seed, this.until, buttons, this.progress],
      ),
      this.looks(),
      this.chart.element,
      this.told,
      this.growth.parts,
    );
    this.chart.element.classList.add("waiting");
    this.panel.append(this.empty, this.body);
    store.on("net", () => this.renew());
    store.on("text", () => this.stale());
  }

  // How the chart of a run is drawn.
  looks() {
    const by = choice("Counts of", {state: "by state", output: "by output"}, (value) => {
      this.by = value;
      this.showCurve();
    });
    const time = choice("Time", {lin: "time as it is", log: "time by its logarithm"}, (value) => {
      this.xLog = value === "log";
      this.showCurve();
    });
    const counts = choice("Counts", {lin: "counts as they are", log: "counts by logarithm"}, (value) => {
      this.yLog = value === "log";
      this.showCurve();
    });
    return h("div", {class: "row looks"}, by, time, counts);
  }

  renew() {
    this.slot.stop();
    const {net} = store;
    this.empty.hidden = Boolean(net);
    this.body.hidden = !net;
    if (!net) return;
    const before = new Map(this.fields.map(([name, field]) => [name, field.value]));
    this.fields = net.names.map((name, i) => {
      const usual = net.names.length === 1 ? ALONE : USUAL[i] ?? USUAL_MORE;
      const look = {type: "number", min: 0, max: MOST, inputmode: "numeric", "aria-label": `agents of ${name}`};
      return [name, h("input", {...look, value: before.get(name) ?? usual})];
    });
    const label = (/** @type {string} */ name, /** @type {HTMLInputElement} */ field) =>
      h("label", {class: "count-of"}, h("b", {}, name), field);
    clear(this.counts, this.fields.map(([name, field]) => label(name, field)));
    this.growth.renew(net.names);
    this.stale();
  }

  stale() {
    if (this.told.childElementCount) this.told.classList.add("old");
    this.chart.element.classList.toggle("old", Boolean(this.curve));
    this.growth.stale();
  }

  /** @param {boolean} busy */
  busy(busy) {
    this.stop.hidden = !busy;
    for (const button of [this.start, this.growth.repeat, this.byProgram]) button.disabled = busy;
    if (!busy) this.progress.textContent = "";
  }

  seedValue() {
    return Math.max(0, Math.floor(Number(this.seed.value)) || 0);
  }

  request() {
    const count = (/** @type {HTMLInputElement} */ field) => Math.max(0, Math.floor(Number(field.value)) || 0);
    const counts = Object.fromEntries(this.fields.map(([name, field]) => [name, count(field)]));
    return {text: store.text, counts, seed: this.seedValue()};
  }

  // A new curve.
  begin() {
    /** @type {Run} */
    const curve = {names: [], outputs: [], times: [], rows: [], agents: 1, marks: []};
    this.curve = curve;
    this.told.classList.remove("old");
    return curve;
  }

  // Takes rows of a curve.
  /**
   * @param {Run} curve
   * @param {CurveRows} message
   */
  take(curve, message) {
    this.chart.element.classList.remove("waiting", "old");
    message.names.forEach(([name, output]) => {
      curve.names.push(name);
      curve.outputs.push(output);
    });
    curve.agents = message.agents;
    for (const [when, crowd] of message.rows) {
      curve.times.push(when / message.agents);
      curve.rows.push(new Map(crowd));
    }
    this.progress.textContent = `${message.meetings.toLocaleString("en")} meetings`;
    this.showCurve();
  }

  async simulate() {
    const curve = this.begin();
    clear(this.told);
    try {
      const request = {...this.request(), until: this.until.value};
      const done = await this.slot.run("simulate", request, (message) => this.take(curve, message));
      const isEnd = done.lastChange && done.terminal;
      curve.marks = isEnd ? [{x: done.lastChange / done.agents, text: "last change"}] : [];
      this.showCurve();
      clear(
        this.told,
        badge("measured"),
        h("p", {class: "summary"}, outcome(done)),
        h("pre", {}, done.told.join("\n")),
        h("button", {type: "button", onclick: () => download("run.trace", done.trace)}, "Download the trace"),
      );
    } catch (error) {
      clear(this.told, endShown(error));
    }
  }

  showCurve() {
    const {curve, xLog, yLog} = this;
    if (!curve || !curve.times.length) return;
    const series = seriesOf(curve, this.by, store.net);
    const names = {xName: "meetings for each agent", xShort: "at", yName: "agents"};
    this.chart.show({series, xLog, yLog, ...names, marks: curve.marks, about: "Counts over parallel time"});
  }

  /**
   * @param {Meetings} list
   * @param {string} replay
   */
  watch(list, replay) {
    const told = `Its journal is replayed: ${replay}.`;
    const words = "run and replayed by the program";
    store.tell("watch", {...list, title: "A run by the program. ", told, by: "run", words});
  }

  async run() {
    const curve = this.begin();
    clear(this.told, h("p", {class: "small"}, "The program runs it…"));
    try {
      const request = {...this.request(), turns: 1_000_000};
      const done = await this.slot.run("run", request, (message) => this.take(curve, message));
      const isEnd = done.last.startsWith("verdict ");
      curve.marks = isEnd ? [{x: done.lastChange / curve.agents, text: "last change"}] : [];
      this.showCurve();
      const held = done.replay.startsWith("holds ");
      const {list, last, replay} = done;
      const save = () => download("journal.txt", done.journal);
      const watch = () => list && this.watch(list, replay);
      clear(
        this.told,
        badge(held ? "run" : "told"),
        h(
          "p",
          {class: "summary"},
          ["The run ends with ", h("code", {}, last), ", and the journal is replayed: ", h("code", {}, replay)],
        ),
        h("p", {}, endTold(last)),
        h(
          "div",
          {class: "row"},
          h("button", {type: "button", onclick: save}, "Download the journal"),
          list && held ? h("button", {type: "button", onclick: watch}, "Watch it in Play") : null,
        ),
      );
    } catch (error) {
      clear(this.told, endShown(error));
    }
  }
}
