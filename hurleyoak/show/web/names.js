// What the names in a text mean: for "what is this name" by the pointer, and for the words that may come next.
import {store} from "./store.js";

/** @type {Record<string, string>} */
const KEYWORDS = {
  family: "a parameter of the text, as in `family k in 2..4`: one protocol for each of its values",
  for: "the lines below, set in, stand once for each value, as in `for i in 1..k-1`",
  format: "the format of the net's file, 1 or 2",
  variables: "the input variables in their order",
  predicate: "what the whole net computes",
  assume: "inputs for which this predicate is false are left out of what is tried; a proof speaks of all inputs",
  combine: "how the leaves' answers become one, as in `a && !b`",
  leaf: "the lines below are those of the leaf with this name",
  states: "all states of the leaf in their order",
  inputs: "for each variable the state in which its agents start",
  helpers: "agents that are in every crowd in addition to the input",
  yes: "the states that say true",
  no: "the states that say false",
  computes: "the predicate that the agents have to agree on",
  layers: "`layers none`, or `layers ?` where they are to be found",
  layer: "weights of states; each move below lowers their sum, so that they end",
  when: "a tree that refutes wrong ends, for inputs where the predicate is true or false",
  keeps: "a set of states that agents don't leave once all of them are in it",
  open: "says what a predicate's value means",
  present: "two cases: at the end no agent is in this state, or one is",
  twin: "two of this state would meet, so at most one is left",
  trap: "agents in this set stay in it, unless a move leaves it",
  siphon: "this set stays empty, unless a move enters it or an agent starts in it",
  first: "cases: a move brings the first agent into this set, one started there, or none ever was in it",
  split: "three cases: is this sum above 0, is it 0, or is it below?",
  lin: "closes the branch: this sum of facts would be below 0, and it is at least 0",
  residue: "closes the branch: this sum cannot be divided so",
};
/** @type {Record<string, string>} */
const FACTS = {
  wrong: "an agent has the wrong output",
  value: "what the predicate's value means for the input",
  flow: "a state's agents: those that started there, and what moves brought and took",
  absent: "no agent is in this state",
  here: "an agent is in this state",
  leaves: "agents that leave a set",
  never: "a move that is never made",
  starts: "an agent starts in a set",
  two: "two agents are in this state",
};
const WORD = /[A-Za-z0-9_'.^~@$%]+/g;

// What a text assumes of its inputs, as a sentence behind others.
/** @param {Net} net */
export function assumedText({assumed}) {
  return assumed.length ? ` The text leaves out the inputs for which ${assumed.join(" or ")} is false.` : "";
}

// How great the leaves of a net are.
/** @param {Made["leaves"]} leaves */
export function sizesTold(leaves) {
  const sizes = leaves.map(([states, moves]) => `${states} states and ${moves} moves`).join("; ");
  return `${leaves.length} lea${leaves.length === 1 ? "f" : "ves"}, ${sizes}`;
}

// The word at a column, with where it begins and ends.
/** @param {string} line @param {number} column */
export function wordAt(line, column) {
  for (const found of line.matchAll(WORD)) {
    const from = found.index ?? 0;
    const to = from + found[0].length;
    if (from <= column && column <= to) return {word: found[0], from, to};
  }
  return null;
}

/** @param {string} word @param {Tally | null} tally */
function state(word, tally) {
  const {net} = store;
  if (!net) return [];
  /** @type {string[]} */
  const out = [];
  net.leaves.forEach((leaf, i) => {
    const q = leaf.states.indexOf(word);
    if (q < 0) return;
    const starts = net.names.filter((_, v) => leaf.inputs[v] === q);
    const moves = leaf.moves.filter(([p, r]) => p === q || r === q).length;
    const now = [...(tally || [])].reduce((sum, [kind, k]) => sum + (kind.word[i] === q ? k : 0), 0);
    const whose = net.leaves.length > 1 ? ` of ${leaf.label}` : "";
    const inputs = starts.length ? `; ${starts.join(", ")} starts here` : "";
    const meets = `it meets in ${moves} move${moves === 1 ? "" : "s"}`;
    out.push(`state ${word}${whose}: says ${leaf.outputs[q]}${inputs}; ${meets}; ${now} of Play's crowd are in it`);
  });
  return out;
}

// What a word of a line means; empty where it means nothing that is known.
/** @param {string} word @param {string} line @param {Tally | null} [tally] */
export function meaningOf(word, line, tally = null) {
  const own = word.replace(/[^A-Za-z0-9_]/g, "\\$&");
  const isHead = new RegExp(`^[\\s│├└─]*(?:[a-z]+(?: \\[[^\\]]*\\])?: )?${own}(?![A-Za-z0-9_])`).test(line);
  if (isHead && Object.hasOwn(KEYWORDS, word)) return `${word}: ${KEYWORDS[word]}`;
  const found = state(word, tally);
  if (found.length) return found.join("\n");
  if (store.net?.names.includes(word)) return `variable ${word}: how many agents of the input start with it`;
  if (Object.hasOwn(FACTS, word)) return `fact ${word}: ${FACTS[word]}`;
  return "";
}

// The words that may stand at a place of a line, keywords first where the line begins.
/** @param {string} line @param {number} column */
export function wordsFor(line, column) {
  const before = line.slice(0, column);
  const typed = /[A-Za-z0-9_'.^~@$%]*$/.exec(before)?.[0] ?? "";
  const states = (store.net?.leaves || []).flatMap((leaf) => leaf.states);
  const names = store.net?.names || [];
  const heads = /^\s*(?:[a-z]+:\s*)?[A-Za-z]*$/.test(before) ? Object.keys(KEYWORDS) : [];
  const ofStates = ["absent", "here", "flow"].flatMap((name) => states.map((q) => `${name}(${q})`));
  const facts = /\b(?:lin|residue|split)\b/.test(before) ? ["wrong", "value", ...ofStates] : [];
  const isPredicate = /^\s*(?:computes|predicate|assume)\b/.test(before);
  const words = [...new Set([...heads, ...facts, ...(isPredicate ? [] : states), ...names])];
  return {typed, words: words.filter((word) => word.startsWith(typed) && word !== typed)};
}
