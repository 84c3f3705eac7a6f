// The picture of a crowd: a dot for each agent, the two that meet, where the focus is.
import {nobody} from "./crowd.js";
import {generator} from "./model.js";
import {s} from "./svg.js";

const LABELS = 130;    // agents, up to which their states are written in them
const LEAST_LABEL = 8; // pixels of a dot's radius below which nothing is written in it
const LINES = 12;      // meetings shown at once while many are made
const ROUND = 1;       // what a circle's side is of a dot's size
const SQUARE = 0.88;   // what a square's is, so that both look as large
const CORNER = 0.3;
const NARROW = 460; // pixels of a stage whose hint takes two lines

/** @typedef {Record<"x" | "y" | "width" | "height" | "rx", string>} Look */
/** @typedef {{shape: SVGRectElement, label: SVGTextElement | null, output: boolean | undefined}} Dot */

/**
 * A shape of a dot's radius, of which its sides and corners are shares.
 * @param {number} radius
 * @param {number} share
 * @param {number} corner
 * @returns {Look}
 */
function boxOf(radius, share, corner) {
  const at = (-share * radius).toFixed(1);
  const side = (2 * share * radius).toFixed(1);
  return {x: at, y: at, width: side, height: side, rx: (corner * radius).toFixed(1)};
}

export class Picture {
  // `stage` is the element that it fills; `chosen(i)` is called for an agent that is pressed.
  /** @param {HTMLElement} stage @param {(i: number) => void} chosen */
  constructor(stage, chosen) {
    this.stage = stage;
    this.crowd = nobody();
    /** @type {SVGGElement[]} */
    this.dots = [];
    // the state that each dot shows
    /** @type {Kind[]} */
    this.painted = [];
    // shape and label of each dot
    /** @type {Dot[]} */
    this.parts = [];
    // agents whose names are those of earlier states
    /** @type {Set<number>} */
    this.unnamed = new Set();
    /** @type {Place[] | null} */
    this.places = null;
    // attributes of a circle and of a square, once there is room
    /** @type {[square: Look, circle: Look] | null} */
    this.looks = null;
    /** @type {number[]} */
    this.order = [];
    this.radius = 0;
    this.chosen = -1;
    this.focus = 0;
    // what all have to say at the end, once that is known
    /** @type {boolean | null} */
    this.ended = null;
    const label = "Agents. Arrow keys go from one to another, Enter chooses two that meet.";
    this.field = s("svg", {class: "field", role: "group", "aria-label": label, tabindex: "-1"});
    this.lines = s("g", {class: "meetings"});
    this.traces = ["met", "idle"].map((word) => s("path", {class: word}));
    this.group = s("g", {class: "agents"});
    this.field.append(this.lines, s("g", {class: "traces"}, this.traces), this.group);
    this.field.addEventListener("click", (event) => {
      const at = this.dots.findIndex((dot) => event.target instanceof Node && dot.contains(event.target));
      if (at >= 0) chosen(at);
    });
    new ResizeObserver(() => this.place()).observe(stage);
  }

  // Another crowd, or the same from its start.
  /** @param {Crowd} crowd */
  draw(crowd) {
    this.crowd = crowd;
    this.chosen = -1;
    this.ended = null;
    const order = crowd.agents.map((_, i) => i);
    const mixed = generator(7);
    for (let i = order.length - 1; i > 0; i--) {
      const j = Math.floor(mixed() * (i + 1));
      [order[i], order[j]] = [order[j], order[i]];
    }
    this.order = order;
    const look = {class: "agent", role: "button"};
    this.dots = crowd.agents.map((_, i) => s("g", {...look, tabindex: i === 0 ? 0 : -1, data: {i}}));
    this.group.replaceChildren(...this.dots);
    this.places = this.looks = null;
    this.painted = [];
    this.wipe();
    this.focus = 0;
    this.place();
    this.paintAll();
  }

  // Places as on a honeycomb, each a little off, with room for the hint below.
  place() {
    const {width, height} = this.stage.getBoundingClientRect();
    const n = this.dots.length;
    if (!width || !height || !n) return;
    this.field.setAttribute("viewBox", `0 0 ${width} ${height}`);
    const [w, t] = [width - 12, height - (width < NARROW ? 48 : 34)];
    let columns = Math.max(1, Math.min(n, Math.round(Math.sqrt((n * w * 0.9) / t))));
    if (n <= 3) columns = n;
    const rows = Math.ceil(n / columns);
    const across = w / (columns + (rows > 1 ? 0.5 : 0));
    const down = t / rows;
    const radius = Math.max(4, Math.min(26, 0.39 * Math.min(across, down * 1.12)));
    const slack = Math.max(0, Math.min(across, down) / 2 - radius) * 0.75;
    const off = generator(11);
    this.radius = radius;
    /** @type {Place[]} */
    const places = [];
    this.order.forEach((i, k) => {
      const row = Math.floor(k / columns);
      const inRow = row === rows - 1 ? n - columns * (rows - 1) : columns;
      const indent = rows > 1 ? (row % 2 ? 0.5 : 0) : 0;
      const left = 6 + indent * across + (row === rows - 1 ? ((columns - inRow) * across) / 2 : 0);
      const x = left + (k - row * columns + 0.5) * across + (off() - 0.5) * 2 * slack;
      const y = 6 + (row + 0.5) * down + (off() - 0.5) * 2 * slack;
      places[i] = [x, y];
      this.dots[i].setAttribute("transform", `translate(${x.toFixed(1)} ${y.toFixed(1)})`);
    });
    this.places = places;
    this.look(radius);
    this.paintAll();
  }

  // What a dot is made of, at a size.
  /** @param {number} r */
  look(r) {
    this.looks = [boxOf(r, SQUARE, CORNER), boxOf(r, ROUND, ROUND)];
    this.painted = [];
    const hasLabels = this.dots.length <= LABELS && r >= LEAST_LABEL;
    this.parts = this.dots.map((dot) => {
      const shape = s("rect");
      const label = hasLabels ? s("text", {dy: "0.35em"}) : null;
      dot.replaceChildren(s("circle", {class: "halo", r: (r + 4).toFixed(1)}), shape, ...(label ? [label] : []));
      return {shape, label, output: undefined};
    });
  }

  // All dots, and their names.
  paintAll() {
    this.crowd.agents.forEach((_, i) => {
      this.mark(i);
      this.paint(i);
    });
    this.name();
  }

  // Who is chosen, whom a meeting with that one would not change, and who says the wrong thing at the end.
  /** @param {number} i */
  mark(i) {
    const {agents, model} = this.crowd;
    const {classList} = this.dots[i];
    classList.toggle("chosen", i === this.chosen);
    classList.toggle("dim", this.chosen >= 0 && i !== this.chosen && !model.after(agents[this.chosen], agents[i]));
    classList.toggle("wrong", this.ended !== null && agents[i].output !== this.ended);
  }

  // An agent in its state: what stays as it was is left alone.
  /** @param {number} i */
  paint(i) {
    const kind = this.crowd.agents[i];
    if (this.painted[i] === kind) return;
    this.unnamed.add(i);
    if (!this.looks) return;
    this.painted[i] = kind;
    const part = this.parts[i];
    const {fill, ink} = this.crowd.model.colour(kind);
    part.shape.setAttribute("fill", fill);
    if (part.output !== kind.output) {
      part.output = kind.output;
      const look = this.looks[kind.output ? 1 : 0];
      for (const [name, value] of Object.entries(look)) part.shape.setAttribute(name, value);
    }
    if (part.label) this.write(part.label, kind, ink);
  }

  /** @param {SVGTextElement} label @param {Kind} kind @param {string} ink */
  write(label, {name}, ink) {
    const size = Math.min(this.radius * 0.95, (this.radius * 2.6) / Math.max(1, name.length));
    label.style.setProperty("font-size", `${size.toFixed(1)}px`);
    label.setAttribute("fill", ink);
    label.textContent = name;
  }

  // What a screen reader says of the agents: only at rest, as nobody can follow it while many meet.
  name() {
    for (const i of this.unnamed) {
      const {name, output} = this.crowd.agents[i];
      this.dots[i].setAttribute("aria-label", `agent ${i} in ${name}, which says ${output}`);
    }
    this.unnamed.clear();
  }

  // Shows two agents that met.
  /** @param {number} a @param {number} b @param {boolean} changed */
  flash(a, b, changed, quick = false) {
    for (const i of [a, b]) {
      const dot = this.dots[i];
      dot.classList.remove("met", "idle");
      if (!quick) void dot.getBoundingClientRect();
      dot.classList.add(changed ? "met" : "idle");
    }
    if (!this.places) return;
    this.untrace();
    const [x1, y1] = this.places[a];
    const [x2, y2] = this.places[b];
    this.lines.append(s("line", {x1, y1, x2, y2, class: changed ? "met" : "idle"}));
    while (this.lines.childElementCount > (quick ? LINES : 1)) this.lines.firstChild?.remove();
  }

  // Shows the last of many meetings at once: two lines of the drawing, with nothing that moves by itself.
  /** @param {Met[]} met */
  trace(met) {
    if (!this.places) return;
    if (this.lines.firstChild) this.lines.replaceChildren();
    const ways = ["", ""];
    for (const [a, b, changed] of met.slice(-LINES)) {
      const [[x1, y1], [x2, y2]] = [this.places[a], this.places[b]];
      ways[changed ? 0 : 1] += `M${x1.toFixed(1)} ${y1.toFixed(1)}L${x2.toFixed(1)} ${y2.toFixed(1)}`;
    }
    this.traces.forEach((path, i) => path.setAttribute("d", ways[i]));
  }

  untrace() {
    this.traces.forEach((path) => path.removeAttribute("d"));
  }

  wipe() {
    this.lines.replaceChildren();
    this.untrace();
  }

  // No meeting is shown, and nobody is chosen.
  calm() {
    this.chosen = -1;
    this.ended = null;
    this.wipe();
    this.dots.forEach((dot) => dot.classList.remove("met", "idle"));
    this.paintAll();
  }

  /** @param {number} i */
  setFocus(i) {
    this.dots[this.focus]?.setAttribute("tabindex", "-1");
    this.focus = i;
    this.dots[i].setAttribute("tabindex", "0");
  }

  // The focus goes to the nearest agent in a direction.
  /** @param {number} dx @param {number} dy */
  near(dx, dy) {
    if (!this.places) return;
    const [x, y] = this.places[this.focus];
    let best = -1;
    let least = Infinity;
    this.places.forEach(([u, v], i) => {
      const along = (u - x) * dx + (v - y) * dy;
      const beside = Math.abs((u - x) * dy) + Math.abs((v - y) * dx);
      if (i !== this.focus && along > 1 && along + 2 * beside < least) [best, least] = [i, along + 2 * beside];
    });
    if (best < 0) return;
    this.setFocus(best);
    this.dots[best].focus();
  }
}
