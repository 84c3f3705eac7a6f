// What has happened in a crowd, in words: moves that lead to their lines, and a list of meetings crowd by crowd.
import {h} from "./dom.js";
import {store} from "./store.js";

const MOST_ROWS = 200;

// A move, which leads to its line where the text has one.
/** @param {Net} net @param {number} leaf @param {number} t */
export function moveText(net, leaf, t) {
  const one = net.leaves[leaf];
  const [p, q, r, z] = one.moves.find((move) => move[4] === t) ?? [0, 0, 0, 0];
  const sign = one.ordered.includes(t) ? "," : "+";
  const text = `${one.shown[p]} ${sign} ${one.shown[q]} → ${one.shown[r]} ${sign} ${one.shown[z]}`;
  const line = one.lines[t];
  if (!line) return h("span", {class: "move"}, text);
  const look = {type: "button", class: "move", title: `line ${line}`};
  return h("button", {...look, onclick: () => store.tell("line", line)}, text);
}

/** @param {Tally} tally */
function words(tally) {
  return [...tally].sort(([a], [b]) => a.id - b.id).map(([kind, k]) => `${k} ${kind.name}`).join(", ");
}

// The crowds after the meetings that change something; `go(at)` is called for the one that is pressed.
/** @param {Crowd} crowd @param {(at: number) => void} go */
export function crowdList(crowd, go) {
  /** @type {HTMLElement[]} */
  const rows = [];
  const row = (/** @type {number} */ at, /** @type {string} */ who) => {
    const told = [h("span", {class: "small"}, `${at}${who}`), " ", h("code", {}, words(crowd.tally))];
    return h("li", {data: {at}}, h("button", {type: "button", class: "plain", onclick: () => go(at)}, told));
  };
  rows.push(row(0, ""));
  crowd.history.forEach(([a, b, before], k) => {
    if (!before || rows.length >= MOST_ROWS) return;
    crowd.go(k + 1);
    rows.push(row(k + 1, `: ${a} meets ${b}`));
  });
  crowd.go(0);
  const more = rows.length >= MOST_ROWS ? h("p", {class: "small"}, `the first ${MOST_ROWS} are listed`) : null;
  return h("details", {class: "crowds"}, h("summary", {class: "small"}, "Crowd by crowd"), h("ol", {}, rows), more);
}
