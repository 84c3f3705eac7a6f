// The picture of a net: what graphviz placed is drawn here; a leaf with many states is a table.
import {clear, h, inside} from "./dom.js";
import {Model, NO_NET} from "./model.js";
import {s} from "./svg.js";

const PAD = 14;
const CELLS = 8;
const COLUMNS = ["state", "says", "starts", "now", "becomes, when it meets"];
// An arrow's head.
const HEAD = {
  viewBox: "0 0 10 10",
  refX: 8.5,
  refY: 5,
  markerWidth: 10,
  markerHeight: 10,
  markerUnits: "userSpaceOnUse",
  orient: "auto-start-reverse",
};
const LAYER_LOOKS = 5; // colours of layers
const WIDEST = 1.5;    // how much greater than placed it is drawn at most

/** @typedef {(place: Place) => Place} Flip */
/** @typedef {(SVGTextElement | HTMLElement)[]} Counters */

// Whether a move makes an agent go along an arrow.
/** @param {Link} link @param {Move} [move] */
function isOf(link, move) {
  if (!move) return false;
  const [p, q, r, t] = move;
  const {from, to, met} = link;
  return (p === from && r === to && met.includes(q)) || (q === from && t === to && met.includes(p));
}

/** @param {Place} point */
function numbers(point) {
  return point.map((v) => v.toFixed(1)).join(" ");
}

/** @param {LeafDrawing["rows"][number]} row */
function rowTold([name, output, , becomes]) {
  return `${name} says ${output}${becomes.length ? `, becomes ${becomes.join(", ")}` : ""}`;
}

export class NetPicture {
  // `word` tells its arrow heads from those of another picture on the page.
  /** @param {string} word */
  constructor(word) {
    this.word = word;
    this.element = h("div", {class: "nets"});
    this.net = NO_NET;
    // of each leaf, for each state, where the number of its agents stands
    /** @type {Counters[]} */
    this.counters = [];
    // of each leaf, its arrows with their elements
    /** @type {[link: Link, group: SVGGElement][][]} */
    this.links = [];
    this.wipe();
  }

  wipe() {
    this.counters = [];
    this.links = [];
    clear(this.element);
  }

  // Draws a net; `done` has the places of its leaves.
  /** @param {Net} net @param {NetDrawing} done */
  draw(net, done) {
    this.net = net;
    this.wipe();
    const model = new Model(net);
    this.element.append(...done.leaves.map((leaf, i) => this.leaf(leaf, i, model)));
    if (done.drawn) return;
    this.element.append(h("p", {class: "small"}, "The drawing needs graphviz: apt-get install graphviz"));
  }

  /** @param {LeafDrawing} leaf @param {number} i @param {Model} model */
  leaf(leaf, i, model) {
    this.counters[i] = [];
    this.links[i] = [];
    const isMany = this.net.leaves.length > 1;
    const shown = leaf.places ? this.drawing(leaf, leaf.places, i, model) : this.table(leaf, i, model);
    return h("section", {class: "netbox"}, isMany ? h("h3", {}, leaf.label) : null, shown);
  }

  /** @param {number} i @param {number} q @param {Model} model */
  colours(i, q, model) {
    const one = new Model({...model.net, leaves: [model.net.leaves[i]], combine: [0]});
    return one.colour(one.kind([q]));
  }

  // ---- a drawing

  /** @param {LeafDrawing} leaf @param {Places} places @param {number} i @param {Model} model */
  drawing(leaf, places, i, model) {
    const [width, height] = [places.width + 2 * PAD, places.height + 2 * PAD];
    const told = leaf.rows.map(rowTold).join("; ");
    /** @type {Flip} */
    const flip = ([x, y]) => [x + PAD, places.height - y + PAD];
    const look = {class: "net", viewBox: `0 0 ${width} ${height}`, role: "img", "aria-label": `The net: ${told}`};
    const svg = s("svg", look, this.heads(i), this.starts(places, leaf.starts, i, flip));
    svg.style.setProperty("max-width", `${Math.round(width * WIDEST)}px`);
    svg.append(...leaf.links.map((link) => this.link(link, i, flip)));
    places.states.forEach(([x, y, wide], q) => {
      svg.append(this.state(i, q, flip([x, y]), wide, this.colours(i, q, model)));
    });
    return h("div", {class: "scroll"}, svg);
  }

  /** @param {number} i */
  heads(i) {
    const markers = ["plain", "hot", "soft", "taken"].map(
      (kind) => s("marker", {id: this.headName(i, kind), class: kind, ...HEAD}, s("path", {d: "M0 1 L10 5 L0 9 z"})),
    );
    return s("defs", {}, markers);
  }

  /** @param {number} i @param {string} kind */
  headName(i, kind) {
    return `head-${this.word}-${i}-${kind}`;
  }

  /** @param {Place[]} points @param {Place} end @param {Flip} flip */
  curve(points, end, flip) {
    const [first, ...rest] = points.map(flip);
    let path = `M${numbers(first)}`;
    for (let k = 0; k + 2 < rest.length; k += 3) path += `C${rest.slice(k, k + 3).map(numbers).join(" ")}`;
    return `${path}L${numbers(flip(end))}`;
  }

  /** @param {Places} places @param {string[]} starts @param {number} i @param {Flip} flip */
  starts(places, starts, i, flip) {
    const end = `url(#${this.headName(i, "soft")})`;
    return Object.entries(places.first).map(([q, curve]) => {
      const [x, y] = flip(places.starts[q]);
      const path = s("path", {class: "start", d: this.curve(curve.points, curve.end, flip), "marker-end": end});
      const name = starts[Number(q)];
      return [path, s("text", {class: "start", x, y: y + 4, "text-anchor": "middle"}, name)];
    });
  }

  /** @param {Link} link @param {number} i @param {Flip} flip */
  link(link, i, flip) {
    const d = this.curve(link.points, link.end, flip);
    const {states} = this.net.leaves[i];
    const thin = s("path", {d, "marker-end": `url(#${this.headName(i, "plain")})`});
    const data = {from: link.from, to: link.to};
    const group = s("g", {class: "link", data}, s("path", {class: "wide", d}), thin);
    if (link.label) {
      const [x, y] = flip(link.label);
      group.append(s("text", {x, y: y + 4, "text-anchor": "middle"}, link.text));
    }
    const met = link.met.map((q) => states[q]).join(", ");
    const told = `an agent in ${states[link.from]} becomes ${states[link.to]} when it meets ${met}`;
    group.append(s("title", {}, told));
    this.links[i].push([link, group]);
    return group;
  }

  /**
   * @param {number} i
   * @param {number} q
   * @param {Place} at
   * @param {number} wide
   * @param {{fill: string, ink: string}} colours
   */
  state(i, q, [x, y], wide, {fill, ink}) {
    const own = this.net.leaves[i];
    const yes = own.outputs[q];
    const half = wide / 2 - 2;
    const count = s("text", {class: "count", x: half - 2, y: -15, "text-anchor": "start"});
    this.counters[i][q] = count;
    const shape = s("rect", {x: -half, y: -18, width: 2 * half, height: 36, rx: yes ? 18 : 4});
    const look = {class: "state", tabindex: 0, transform: `translate(${numbers([x, y])})`};
    const vars = {"--fill": fill, "--ink": ink};
    const name = s("text", {"text-anchor": "middle", dy: "0.35em"}, own.states[q]);
    const node = s("g", {...look, vars, "aria-label": `${own.states[q]} says ${yes}`}, shape, name, count);
    for (const event of ["pointerenter", "focus"]) node.addEventListener(event, () => this.heat(i, q, true));
    for (const event of ["pointerleave", "blur"]) node.addEventListener(event, () => this.heat(i, q, false));
    return node;
  }

  // What touches a state stands out.
  /** @param {number} i @param {number} q @param {boolean} on */
  heat(i, q, on) {
    this.links[i].forEach(([link, group]) => {
      const mine = link.from === q || link.to === q;
      group.classList.toggle("hot", on && mine);
      group.classList.toggle("far", on && !mine);
      this.head(i, group);
    });
  }

  // An arrow's head has its colour.
  /** @param {number} i @param {SVGGElement} group */
  head(i, group) {
    const kind = ["hot", "taken"].find((one) => group.classList.contains(one)) || "plain";
    inside(group, "path:not(.wide)").setAttribute("marker-end", `url(#${this.headName(i, kind)})`);
  }

  // ---- a table

  /** @param {LeafDrawing} leaf @param {number} i @param {Model} model */
  table(leaf, i, model) {
    const head = COLUMNS.map((name) => h("th", {scope: "col"}, name));
    const rows = leaf.rows.map((row, q) => this.row(row, i, q, model));
    const table = h("table", {class: "figures left"}, h("thead", {}, h("tr", {}, head)), h("tbody", {}, rows));
    return h("div", {class: "scroll"}, table);
  }

  /** @param {LeafDrawing["rows"][number]} row @param {number} i @param {number} q @param {Model} model */
  row([name, output, starts, becomes], i, q, model) {
    const count = h("td", {class: "now"});
    this.counters[i][q] = count;
    const more = becomes.length > CELLS ? `; ${becomes.length - CELLS} more` : "";
    const vars = {"--fill": this.colours(i, q, model).fill};
    const state = h("td", {}, h("i", {class: output === "true" ? "round" : "square", vars}), ` ${name}`);
    const shown = becomes.slice(0, CELLS).join("; ") + more;
    const last = h("td", {class: "becomes", title: becomes.join("; ")}, shown);
    return h("tr", {}, state, h("td", {}, output), h("td", {}, starts), count, last);
  }

  // ---- what changes in it

  // Whether what is drawn has the states of a net.
  /** @param {Net} net */
  fits({leaves}) {
    if (leaves.length !== this.counters.length) return false;
    return leaves.every((leaf, i) => leaf.states.length === this.counters[i].length);
  }

  // How many agents are in each state of a leaf.
  /** @param {number} i @param {number[]} sums */
  count(i, sums) {
    this.counters[i].forEach((place, q) => (place.textContent = sums[q] ? sums[q].toLocaleString("en") : ""));
  }

  // The arrows of the meeting that was made last, from one state to another each, and in a table its states.
  /** @param {number} i @param {number[][]} taken */
  lit(i, taken) {
    this.links[i].forEach(([link, group]) => {
      group.classList.toggle("taken", taken.some(([p, r]) => link.from === p && link.to === r));
      this.head(i, group);
    });
    this.counters[i].forEach((count, q) => {
      count.closest("tr")?.classList.toggle("taken", taken.some((both) => both.includes(q)));
    });
  }

  get hasArrows() {
    return this.links.some((links) => links.length);
  }

  // By colour and dashes, in which layer of the proof the moves of each arrow stand: the first one, where of several.
  /** @param {number[][][]} found @param {boolean} isShown */
  layers(found, isShown) {
    this.links.forEach((links, i) => {
      const {moves} = this.net.leaves[i];
      for (const [link, group] of links) {
        const isIn = (/** @type {number} */ t) => isOf(link, moves.find((move) => move[4] === t));
        const first = found[i].findIndex((layer) => layer.some(isIn));
        group.classList.toggle("layered", isShown);
        if (isShown) group.dataset.layer = first < 0 ? "" : String(first % LAYER_LOOKS);
        else delete group.dataset.layer;
      }
    });
  }

  // What the colours say.
  /** @param {number[][][]} found */
  legend(found) {
    const most = Math.max(...found.map((layers) => layers.length));
    return Array.from({length: most}, (_, k) => h("span", {data: {layer: k % LAYER_LOOKS}}, `layer ${k}`));
  }
}
