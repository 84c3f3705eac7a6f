// Charts as SVG: steps over time, and points over sizes, with plain axes and names at the lines' ends.
import {clear, h} from "./dom.js";
import {s} from "./svg.js";

const LEFT = 58;
const TOP = 12;
const BOTTOM = 40;
const NAMES = 112;
const NAMES_NARROW = 62;
const MOST_ROWS = 14; // of the tip
const NEAR = 0.35;    // pixels between two points of which one is seen

/** @param {number} value */
export function spelled(value) {
  if (value === 0) return "0";
  const size = Math.abs(value);
  if (size >= 1e6) return power(value);
  return value.toLocaleString("en", {maximumSignificantDigits: size < 1000 ? 3 : 6});
}

/** @param {number} value */
function power(value) {
  const exponent = Math.floor(Math.log10(Math.abs(value)) + 1e-9);
  const factor = Number((value / 10 ** exponent).toPrecision(3));
  return `${factor === 1 ? "" : `${factor}·`}10${raised(exponent)}`;
}

/** @param {number} n */
function raised(n) {
  return String(n).replace(/./g, (c) => "⁰¹²³⁴⁵⁶⁷⁸⁹"[Number(c)] || "⁻");
}

/** @param {number} low @param {number} high @param {boolean | undefined} isLog @param {number} room */
function ticks(low, high, isLog, room) {
  const out = [];
  if (isLog) {
    const from = Math.floor(Math.log10(low));
    const to = Math.ceil(Math.log10(high));
    const every = Math.max(1, Math.ceil((to - from) / room));
    for (let e = from; e <= to; e += every) {
      for (const m of (to - from) * 3 <= room + 2 ? [1, 2, 5] : [1]) {
        const value = m * 10 ** e;
        if (value >= low * 0.999 && value <= high * 1.001) out.push(value);
      }
    }
    return out;
  }
  const raw = (high - low) / room || 1;
  const power = 10 ** Math.floor(Math.log10(raw));
  const step = [1, 2, 5].map((m) => m * power).find((one) => one >= raw) ?? 10 * power;
  for (let v = Math.ceil(low / step) * step; v <= high * 1.0001; v += step) out.push(Number(v.toPrecision(12)));
  return out;
}

/**
 * @template {{y: number}} L
 * @param {L[]} labels
 * @param {number} low
 * @param {number} high
 * @param {number} gap
 */
function spread(labels, low, high, gap) {
  const sorted = [...labels].sort((a, b) => a.y - b.y);
  sorted.forEach((one, i) => (one.y = Math.max(one.y, i ? sorted[i - 1].y + gap : low)));
  for (let i = sorted.length - 1; i >= 0; i--) {
    sorted[i].y = Math.min(sorted[i].y, i === sorted.length - 1 ? high : sorted[i + 1].y - gap);
  }
  return sorted;
}

/** @param {number[]} values */
function least(values) {
  return values.reduce((a, b) => Math.min(a, b), Infinity);
}

/** @param {number[]} values */
function most(values) {
  return values.reduce((a, b) => Math.max(a, b), -Infinity);
}

/** @param {Series} one */
function last(one) {
  return one.points[one.points.length - 1];
}

/** @param {string} name @param {number} signs */
function shortened(name, signs) {
  return name.length > signs ? `${name.slice(0, signs - 1)}…` : name;
}

// From values to places, those of `low` and of `high` at `from` and at `to`.
/**
 * @param {number} low
 * @param {number} high
 * @param {boolean | undefined} isLog
 * @param {number} from
 * @param {number} to
 * @returns {Scale}
 */
function scale(low, high, isLog, from, to) {
  const part = (/** @type {number} */ v) =>
    isLog ? Math.log(Math.max(v, low) / low) / Math.log(high / low) : (v - low) / (high - low);
  return (v) => from + (part(v) || 0) * (to - from);
}

export class Chart {
  constructor() {
    this.svg = s("svg", {class: "chart", role: "img"});
    this.tip = h("div", {class: "tip", hidden: true});
    this.element = h("div", {class: "chartbox"}, this.svg, this.tip);
    /** @type {ChartData | null} */
    this.data = null;
    this.cross = s("line");
    this.range = {xLow: 0, xHigh: 1, left: 0, right: -1};
    this.isLog = false;
    this.shownSize = "";
    new ResizeObserver(() => this.data && this.size() !== this.shownSize && this.show(this.data)).observe(this.element);
    this.element.addEventListener("pointermove", (event) => this.point(event));
    this.element.addEventListener("pointerleave", () => this.unpoint());
  }

  size() {
    const {width, height} = this.element.getBoundingClientRect();
    return `${Math.round(width)} ${Math.round(height)}`;
  }

  /** @param {ChartData} data */
  show(data) {
    this.data = data;
    const box = this.element.getBoundingClientRect();
    const width = Math.max(280, box.width);
    const height = Math.max(180, box.height);
    this.shownSize = this.size();
    const right = width > 460 ? NAMES : NAMES_NARROW;
    const series = data.series.filter((one) => one.points.length);
    this.svg.setAttribute("viewBox", `0 0 ${width} ${height}`);
    this.svg.setAttribute("aria-label", data.about || "");
    if (!series.length) return clear(this.svg);
    const [xLow, xHigh] = this.spanX(series, data);
    const [yLow, yHigh] = this.spanY(series, data);
    const x = scale(xLow, xHigh, data.xLog, LEFT, width - right);
    const y = scale(yLow, yHigh, data.yLog, height - BOTTOM, TOP);
    this.range = {xLow, xHigh, left: LEFT, right: width - right};
    this.isLog = Boolean(data.xLog);
    const bottom = height - BOTTOM;
    const axis = s("g", {class: "axis"});
    for (const v of ticks(xLow, xHigh, data.xLog, width / 110)) {
      const text = s("text", {x: x(v), y: bottom + 16, "text-anchor": "middle"}, spelled(v));
      axis.append(s("line", {x1: x(v), x2: x(v), y1: TOP, y2: bottom}), text);
    }
    for (const v of ticks(yLow, yHigh, data.yLog, height / 55)) {
      const text = s("text", {x: LEFT - 6, y: y(v) + 4, "text-anchor": "end"}, spelled(v));
      axis.append(s("line", {x1: LEFT, x2: width - right, y1: y(v), y2: y(v)}), text);
    }
    const turned = `translate(12 ${(TOP + bottom) / 2}) rotate(-90)`;
    const name = {class: "name", "text-anchor": "middle"};
    axis.append(
      s("text", {...name, x: (LEFT + width - right) / 2, y: height - 6}, data.xName),
      s("text", {...name, x: 0, y: 0, transform: turned}, data.yName),
    );
    const lines = series.map((one) => this.line(one, x, y, data));
    const within = (data.marks || []).filter((m) => m.x >= xLow && m.x <= xHigh);
    const marks = within.map((m) => {
      const text = s("text", {x: x(m.x) - 4, y: TOP + 9, "text-anchor": "end"}, m.text);
      return s("g", {class: "event"}, s("line", {x1: x(m.x), x2: x(m.x), y1: TOP, y2: bottom}), text);
    });
    const labels = this.labels(series, y, width - right, bottom, width > 460 ? 12 : 6);
    this.cross = s("line", {class: "cross", y1: TOP, y2: bottom, visibility: "hidden"});
    clear(this.svg, axis, lines, marks, labels, this.cross);
  }

  // From where to where a chart goes across.
  /** @param {Series[]} series @param {ChartData} data */
  spanX(series, data) {
    const xs = series.flatMap((one) => one.points.map((p) => p[0])).filter((x) => !data.xLog || x > 0);
    let [low, high] = [least(xs), most(xs)];
    if (!Number.isFinite(low)) [low, high] = [data.xLog ? 1 : 0, 1];
    if (high <= low) high = data.xLog ? low * 10 : low + 1;
    return data.dotted && data.xLog ? [low / 1.1, high * 1.1] : [low, high];
  }

  // From where to where it goes up.
  /** @param {Series[]} series @param {ChartData} data */
  spanY(series, data) {
    const ys = series.flatMap((one) => one.points.map((p) => p[1])).filter((y) => !data.yLog || y > 0);
    let [low, high] = [data.yLog ? least(ys) : 0, most(ys)];
    if (!Number.isFinite(low) || !Number.isFinite(high)) [low, high] = [data.yLog ? 1 : 0, 1];
    if (high <= low) high = data.yLog ? low * 10 : low + 1;
    return data.yLog ? [low / 1.15, high * 1.15] : [low, high];
  }

  // Names at the lines' ends; of many lines those that end at 0 have none.
  /**
   * @param {Series[]} series
   * @param {Scale} y
   * @param {number} left
   * @param {number} bottom
   * @param {number} signs
   */
  labels(series, y, left, bottom, signs) {
    const own = series.filter((one) => one.name && (series.length <= 6 || last(one)[1] > 0));
    const places = spread(own.map((one) => ({one, y: y(last(one)[1])})), TOP + 4, bottom, 15);
    return places.map(
      ({one, y: at}) => s(
        "g",
        {class: "label", vars: {"--c": one.colour}},
        s("rect", {x: left + 5, y: at - 4, width: 8, height: one.dash ? 2 : 8, rx: one.round ? 4 : 1}),
        s("text", {x: left + 18, y: at + 4}, shortened(one.name, signs)),
      ),
    );
  }

  /** @param {Series} one @param {Scale} x @param {Scale} y @param {ChartData} data */
  line(one, x, y, data) {
    const usable = one.points.filter((p) => (!data.xLog || p[0] > 0) && (!data.yLog || p[1] > 0));
    const group = s("g", {class: "series", vars: {"--c": one.colour}});
    if (one.dots) usable.forEach((p) => group.append(s("circle", {cx: x(p[0]), cy: y(p[1]), r: 3.5})));
    for (const [at, low, high] of one.bars ?? []) {
      group.append(s("line", {class: "bar", x1: x(at), x2: x(at), y1: y(low), y2: y(high)}));
    }
    if (!one.dots) {
      // (no more points than can be seen)
      let path = "";
      /** @type {Point | null} */
      let before = null;
      const end = usable.at(-1)?.[0];
      for (const [u, v] of usable) {
        const [a, b] = [x(u), y(v)];
        const isNear = before !== null && Math.abs(a - before[0]) < NEAR && Math.abs(b - before[1]) < NEAR;
        if (isNear && one.steps && u !== end) continue;
        const [across, up] = [a.toFixed(1), b.toFixed(1)];
        if (before && one.steps) path += `H${across}V${up}`;
        else path += `${before ? "L" : "M"}${across} ${up}`;
        before = [a, b];
      }
      group.append(s("path", {d: path, class: one.dash ? "dash" : ""}));
    }
    return group;
  }

  /** @param {PointerEvent} event */
  point(event) {
    if (!this.data) return;
    const box = this.svg.getBoundingClientRect();
    const px = ((event.clientX - box.left) / box.width) * this.svg.viewBox.baseVal.width;
    const {left, right, xLow, xHigh} = this.range;
    if (px < left || px > right) return this.unpoint();
    const part = (px - left) / (right - left);
    const at = this.isLog ? xLow * (xHigh / xLow) ** part : xLow + part * (xHigh - xLow);
    for (const name of ["x1", "x2"]) this.cross.setAttribute(name, String(px));
    this.cross.setAttribute("visibility", "visible");
    const rows = this.data.series.filter((one) => one.points.length).map((one) => {
      const value = one.dots ? nearest(one.points, at) : before(one.points, at);
      const number = h("b", {}, value === null ? "–" : spelled(value));
      return h("div", {}, h("i", {vars: {"--c": one.colour}}), `${one.name} `, number);
    });
    clear(this.tip, h("div", {class: "small"}, `${this.data.xShort} ${spelled(at)}`), rows.slice(0, MOST_ROWS));
    this.tip.hidden = false;
    const besides = Math.min(event.clientX - box.left + 14, box.width - this.tip.offsetWidth - 4);
    this.tip.style.setProperty("left", `${besides}px`);
    this.tip.style.setProperty("top", `${Math.max(0, event.clientY - box.top - 10)}px`);
  }

  unpoint() {
    this.tip.hidden = true;
    this.cross.setAttribute("visibility", "hidden");
  }
}

/** @param {Point[]} points @param {number} at */
function before(points, at) {
  let low = 0;
  let high = points.length - 1;
  if (points[0][0] > at) return null;
  while (low < high) {
    const middle = (low + high + 1) >> 1;
    if (points[middle][0] <= at) low = middle;
    else high = middle - 1;
  }
  return points[low][1];
}

/** @param {Point[]} points @param {number} at */
function nearest(points, at) {
  const far = (/** @type {Point} */ p) => Math.abs(Math.log(p[0] / at));
  return points.reduce((best, p) => (far(p) < far(best) ? p : best))[1];
}
