// A run's counts over time as the series of a chart, in the colours of Play where the net has one leaf.
import {shade} from "./model.js";

const MOST_SERIES = 24;

// `curve` has names, outputs, times, and at each time a map from the number of a name to its count.
/** @param {Curve} curve @param {string} by @param {Net | null} net @returns {Series[]} */
export function seriesOf(curve, by, net) {
  if (by === "output") {
    /** @type {(row: Map<number, number>, output: boolean) => number} */
    const sum = (row, output) => [...row].reduce((all, [at, k]) => all + (curve.outputs[at] === output ? k : 0), 0);
    return [true, false].map((output) => ({
                               name: `say ${output}`,
                               colour: shade(output, 0, 1).fill,
                               round: output,
                               steps: true,
                               points: curve.rows.map((row, i) => [curve.times[i], sum(row, output)]),
                             }));
  }
  const colours = coloursOf(curve, net);
  /** @type {Series[]} */
  const series = curve.names.map((name, at) => ({
                                   name,
                                   colour: colours[at],
                                   round: curve.outputs[at],
                                   steps: true,
                                   points: curve.rows.map((row, i) => [curve.times[i], row.get(at) || 0]),
                                 }));
  const most = (/** @type {Series} */ one) => one.points.reduce((high, [, k]) => Math.max(high, k), 0);
  return series.sort((a, b) => most(b) - most(a)).slice(0, MOST_SERIES);
}

/** @param {Curve} curve @param {Net | null} net */
function coloursOf(curve, net) {
  const used = [0, 0];
  const one = net && net.leaves.length === 1 ? net.leaves[0] : null;
  if (one) one.outputs.forEach((output) => used[output ? 1 : 0]++);
  const seen = [0, 0];
  return curve.names.map((name, at) => {
    const output = curve.outputs[at];
    const own = one ? one.states.indexOf(name) : -1;
    const before = one && own >= 0 ? one.outputs.slice(0, own).filter((o) => o === output) : null;
    const rank = before ? before.length : seen[output ? 1 : 0]++;
    return shade(output, rank, one ? used[output ? 1 : 0] : 8).fill;
  });
}
