// A proof shown: layers as tables, trees that fold, facts where the pointer or the focus is, what is refused in red.
// The page of `explain --html` has this same module in it.
import {h} from "./dom.js";

const COLUMNS = ["", "move", "before", "after", "lowers by"];
const OPEN_FACTS = 6;   // so many facts of a node stand open
const OPEN_NODES = 400; // trees with more nodes are folded below
const OPEN_DEPTH = 5;
const OPEN_MOVES = 24;

/** @typedef {{onLine?: (line: number) => void, onSays?: (text: string) => void}} Call */
/** @typedef {Call & {bad: Set<number>, first?: ProofNode, all: number}} TreeCall */

/** @type {Record<string, string>} */
const KIND_TOLD = {
  open: "says what a predicate's value means",
  present: "is the state empty at the end, or is an agent in it?",
  twin: "two of this state would meet, so at most one is left",
  trap: "agents in this set stay in it, unless a move leaves it",
  siphon: "this set stays empty, unless a move enters it or an agent starts in it",
  first: "nobody can come into this set first: a case for each move that brings somebody in",
  split: "is this sum above 0, is it 0, or is it below?",
  lin: "closes the branch: this sum of facts would be below 0, and it is at least 0",
  residue: "closes the branch: this sum cannot be divided so",
};

/** @param {Fact} fact @param {Call} call */
function factSpan(fact, call) {
  const [number, name, says, means] = fact;
  const told = `#${number}  ${name}   ${says}${means ? `   (${means})` : ""}`;
  const show = () => call.onSays?.(told);
  const look = {class: "fact", tabindex: "0", title: told};
  return h("span", {...look, onmouseover: show, onfocus: show, onclick: show}, name);
}

/** @param {[factor: number, fact: Fact][]} all @param {Call} call */
function terms(all, call) {
  const sign = (/** @type {number} */ k, /** @type {number} */ i) => {
    if (i) return k < 0 ? " − " : " + ";
    return k < 0 ? "−" : "";
  };
  return all.map(([k, fact], i) => [sign(k, i), Math.abs(k) === 1 ? "" : `${Math.abs(k)}·`, factSpan(fact, call), ]);
}

/** @param {ProofNode} node @param {Call} call */
function words(node, call) {
  const label = node.label ? [h("b", {class: "case"}, node.label), " "] : [];
  if (node.head) {
    const title = KIND_TOLD[node.head.split(" ")[0]];
    const sum = h("span", {class: "sum"}, node.terms ? terms(node.terms, call) : "0");
    return [...label, h("b", {class: "kind", title}, node.head), " ", sum];
  }
  const [first, ...rest] = node.words.split(" ");
  return [...label, h("b", {class: "kind", title: KIND_TOLD[first] || ""}, first), " ", rest.join(" ")];
}

/** @param {Fact[]} facts */
function factTable(facts) {
  if (!facts.length) return [];
  const rows = facts.map(
    ([number, ...words]) => h("tr", {}, [`#${number}`, ...words].map((word) => h("td", {}, word))),
  );
  const table = h("div", {class: "scroll"}, h("table", {class: "facts"}, h("tbody", {}, rows)));
  const summary = h("summary", {class: "small"}, facts.length > 1 ? `${facts.length} facts` : "1 fact");
  return [h("details", {open: facts.length <= OPEN_FACTS, class: "factbox"}, summary, table)];
}

/** @param {ProofNode} node @param {boolean} isFirst */
function said(node, isFirst) {
  const out = [];
  if (node.refused) out.push(h("p", {class: "refused"}, h("b", {}, isFirst ? "refused: " : "also: "), node.refused));
  for (const told of node.lacks || []) out.push(h("p", {class: "refused"}, told));
  if (node.open) out.push(h("p", {class: "small"}, "this part is to be found"));
  for (const told of node.about || []) out.push(h("p", {class: "small"}, told));
  if (!node.open && node.closes) {
    const closes = h("span", {class: "small"}, ` ${node.closes}`);
    out.push(h("p", {class: "closes"}, h("code", {}, node.sum), closes));
  }
  return out;
}

// The way to a node's line.
/** @param {ProofNode} node @param {Call} call */
function lineButton({line}, {onLine}) {
  if (!line || !onLine) return null;
  const go = (/** @type {Event} */ event) => {
    event.preventDefault();
    onLine(line);
  };
  return h("button", {type: "button", class: "toline", onclick: go}, `line ${line}`);
}

// A node and all below it fold together; what is folded is made when it is opened.
/**
 * @param {ProofNode} node
 * @param {Map<number, ProofNode[]>} below
 * @param {number} depth
 * @param {TreeCall} call
 * @returns {HTMLElement}
 */
function nodeItem(node, below, depth, call) {
  const kids = below.get(node.n) || [];
  const bad = call.bad.has(node.n);
  const inner = h("div", {class: "inner"});
  const open = call.all <= OPEN_NODES || depth < OPEN_DEPTH || bad;
  let made = false;
  const make = () => {
    if (made) return;
    made = true;
    inner.append(...factTable(node.facts), ...said(node, node === call.first));
    if (kids.length) inner.append(h("ul", {}, kids.map((kid) => nodeItem(kid, below, depth + 1, call))));
  };
  if (open) make();
  const summary = h("summary", {}, h("i", {}, node.n), words(node, call), lineButton(node, call));
  const box = h("details", {open, ontoggle: make}, summary, inner);
  let look = bad ? "above" : "";
  if (node.refused) look = node === call.first ? "bad" : "bad also";
  return h("li", {class: look, data: {node: node.n}}, box);
}

/** @param {ProofNode[]} nodes @param {string} title @param {string} about @param {Call} call */
function tree(nodes, title, about, call) {
  /** @type {Map<number, ProofNode[]>} */
  const below = new Map();
  /** @type {Map<number, number>} */
  const owner = new Map();
  for (const node of nodes) {
    const kids = below.get(node.owner);
    if (kids) kids.push(node);
    else below.set(node.owner, [node]);
    owner.set(node.n, node.owner);
  }
  // (whatever stands above a refused node is opened)
  const first = nodes.find((node) => node.refused);
  /** @type {Set<number>} */
  const bad = new Set();
  for (let n = first ? first.n : undefined; n !== undefined && n >= 0 && !bad.has(n); n = owner.get(n)) bad.add(n);
  const own = {...call, bad, first, all: nodes.length};
  const list = h("ul", {class: "tree"}, (below.get(-1) || []).map((node) => nodeItem(node, below, 0, own)));
  const fold = (/** @type {boolean} */ open) => list.querySelectorAll("details").forEach((box) => {
    if (!box.classList.contains("factbox")) box.open = open;
  });
  const button = {type: "button", class: "plain small"};
  const heading = h(
    "h4",
    {},
    [title, h("span", {class: "small"}, ` ${nodes.length} node${nodes.length === 1 ? "" : "s"} `)],
    h("button", {...button, onclick: () => fold(false)}, "fold"),
    h("button", {...button, onclick: () => fold(true)}, "open"),
  );
  return h("section", {class: `treebox${first ? " has-bad" : ""}`}, heading, h("p", {class: "small"}, about), list);
}

/** @param {ProofLayer["moves"][number]} move */
function moveRow([n, name, before, after, lowers, silent]) {
  const pairs = [before, after].map(([one, two]) => `${one} + ${two}`);
  const cells = [n, name, ...pairs, silent ? "silent" : lowers].map((cell) => h("td", {}, cell));
  return h("tr", {class: lowers <= 0 && !silent ? "bad" : ""}, cells);
}

/** @param {ProofLayer} one @param {number} number */
function layer(one, number) {
  if (!one.shaped) return h("p", {class: "refused"}, `layer ${number} is malformed`);
  const weights = one.weights.map(([state, weight]) => h("td", {}, h("b", {}, state), ` ${weight}`));
  const rows = one.moves.map(moveRow);
  const bound = `at most ${one.bound} step${one.bound === 1 ? "" : "s"} for each agent`;
  const each = "each of its moves lowers the weights, and none makes a move of an earlier layer possible";
  const head = COLUMNS.map((name) => h("th", {scope: "col"}, name));
  const table = h("table", {}, h("thead", {}, h("tr", {}, head)), h("tbody", {}, rows));
  return h(
    "section",
    {class: "layer"},
    h("h4", {}, `Layer ${number}`, h("span", {class: "small"}, ` ${bound}; ${each}`)),
    h("div", {class: "scroll"}, h("table", {}, h("tbody", {}, h("tr", {}, weights)))),
    h(
      "details",
      {open: one.moves.length <= OPEN_MOVES},
      h("summary", {class: "small"}, `${one.moves.length} move${one.moves.length === 1 ? "" : "s"}`),
      h("div", {class: "scroll"}, table),
    ),
  );
}

/** @param {ProofGoal} goal @param {ProofNode[]} nodes @param {string} value @param {Call} call */
function goalPart(goal, nodes, value, call) {
  const crowds = "each crowd in which none of these moves is possible and an agent is outside";
  const about = `Refutes ${crowds}, where the predicate is ${value}.`;
  return [
    h("h4", {}, `Goal when the predicate is ${value}`),
    goal.lacks.map((told) => h("p", {class: "refused"}, told)),
    goal.told.map((told) => h("p", {class: "small"}, told)),
    goal.layers.length ? goal.layers.map(layer) : h("p", {class: "small"}, "no layers"),
    tree(nodes, `When the predicate is ${value}`, about, call),
  ];
}

// The proof of a leaf that falls silent.
/** @param {ProofLeaf} leaf @param {Call} call */
function silentPart(leaf, call) {
  const about = (/** @type {boolean} */ value) =>
    `Refutes each terminal crowd in which an agent says ${!value}, where the predicate is ${value}.`;
  return [
    leaf.layers.length ? leaf.layers.map(layer) : h("p", {class: "small"}, "no layers"),
    tree(leaf.true, "When the predicate is true", about(true), call),
    tree(leaf.false, "When the predicate is false", about(false), call),
  ];
}

/** @param {ProofLeaf} leaf @param {boolean} many @param {Call} call */
function leafPart(leaf, many, call) {
  const starts = leaf.starts.map(([name, state]) => `${name} starts in ${state}`).join(", ");
  const helpers = leaf.helpers.length ? `; helpers: ${leaf.helpers.join(", ")}` : "";
  const {true: yes, false: no} = leaf.goals ?? {};
  return [
    many ? h("h3", {}, leaf.label) : null,
    h("p", {class: "small"}, `${starts}${helpers}. It computes `, h("code", {}, leaf.computes), "."),
    leaf.layerLacks.map((told) => h("p", {class: "refused"}, told)),
    yes && no ? [goalPart(yes, leaf.true, "true", call), goalPart(no, leaf.false, "false", call)]
              : silentPart(leaf, call),
  ];
}

// Of each leaf, the moves of each layer.
/** @param {Explanation} explanation */
export function layersOf(explanation) {
  return explanation.leaves.map((leaf) => leaf.layers.map((one) => one.moves.map(([t]) => t)));
}

// `call` has `onLine(line)` and `onSays(text)`, where these are of use.
/** @param {Explanation} explanation @param {Call} [call] */
export function render(explanation, call = {}) {
  return h(
    "div",
    {class: "proof"},
    explanation.soon.map((told) => h("p", {class: "soon"}, told)),
    explanation.notes.map((told) => h("p", {class: "refused"}, told)),
    explanation.warnings.map((told) => h("p", {class: "warning"}, `warning: ${told}`)),
    explanation.combine ? h("p", {}, "The net says ", h("code", {}, explanation.combine), ".") : null,
    explanation.leaves.map((leaf) => leafPart(leaf, explanation.leaves.length > 1, call)),
  );
}
