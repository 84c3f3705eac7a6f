// How sure something is: the same words and looks everywhere.
import {h} from "./dom.js";

// Whether the program that answers is that of the sources; of any other it isn't known what is proved of it.
let isOfSources = false;

/** @param {boolean} known */
export function setProgram(known) {
  isOfSources = known;
}

const CHECKED = "PROGRAM has checked the proof: ";
const COUNTED = "Counted in runs by the workbench.";
/** @type {Record<BadgeKind, [sign: string, words: string, meaning: string]>} */
const KINDS = {
  certified: [
    "✓",
    "certified by the program",
    `${CHECKED}the protocol is right for all crowds of two agents or more, and falls silent.`,
  ],
  stable: [
    "✓",
    "shown stable by the program",
    `${CHECKED}in all crowds of two agents or more the outputs come to the right value and stay there, though ` +
      "agents may go on changing.",
  ],
  rejected: ["✕", "rejected by the program", "PROGRAM refuses this proof. The protocol may be right or wrong."],
  compiled: ["✓", "compiled by the program", "PROGRAM made this net and its proof."],
  played: ["▸", "played by the program", "PROGRAM plays these meetings to this very end."],
  run: ["▸", "run and replayed by the program", "PROGRAM made this run, and holds its journal."],
  measured: ["≈", "measured, not proved", `${COUNTED} Another run may come out otherwise.`],
  told: ["○", "not proved", "The workbench's or the page's own word."],
  tried: ["○", "tried, not proved", "All crowds so small were tried by the workbench. Greater ones may go wrong."],
};

/** @param {BadgeKind} kind */
export function badge(kind, text = "") {
  const [sign, words] = KINDS[kind];
  const look = {class: `badge ${kind}`, title: meaning(kind)};
  return h("span", look, h("span", {"aria-hidden": "true"}, sign), text || words);
}

// The kind of an answer on a bundle, by what it claims.
/** @param {Answer} answer @returns {"certified" | "stable" | "rejected"} */
export const kindOf = (answer) => (answer.good ? answer.claim : "rejected");

/** @param {string} [kind] */
export const isProved = (kind) => kind === "certified" || kind === "stable";

/** @param {BadgeKind} kind */
export function meaning(kind) {
  const program = isOfSources ? "The proved program" : "The program that the foot of the page names";
  return KINDS[kind][2].replace("PROGRAM", program);
}
