// The net as the page plays it: a meeting takes a move for its two states in each leaf, by chance where several are.

// What stands for the net before there is one.
/** @type {Net} */
export const NO_NET = {
  names: [],
  combine: [],
  leaves: [],
  predicate: "",
  assumed: []
};

const LEAST = 1e-9; // a chance that is none, but for the rounding of sums

/** @param {Net["combine"]} combine @param {boolean[]} values */
export function combined(combine, values) {
  /** @type {boolean[]} */
  const stack = [];
  for (const item of combine) {
    if (typeof item === "number") stack.push(values[item]);
    else if (item === "not") stack.push(!stack.pop());
    else {
      const right = stack.pop() ?? false;
      const left = stack.pop() ?? false;
      stack.push(item === "and" ? left && right : left || right);
    }
  }
  return stack[0];
}

/** @typedef {[r: number, s: number, number: number | null, chance: number]} Taken */

// By which two states are found, the first agent's and the second's.
/** @param {number} p @param {number} q */
function pairKey(p, q) {
  return p * 65536 + q;
}

// The first move for two states, which the program takes.
/** @param {Leaf} leaf */
function firstMoves(leaf) {
  /** @type {Map<number, [r: number, s: number, number: number]>} */
  const table = new Map();
  for (const [p, q, r, s, t] of leaf.moves) {
    if (table.has(pairKey(p, q))) continue;
    table.set(pairKey(p, q), [r, s, t]);
    if (!table.has(pairKey(q, p))) table.set(pairKey(q, p), [s, r, t]);
  }
  return table;
}

// All moves for the states of an initiator and a responder, each with its chance: an equal one where none is given.
/** @param {Leaf} leaf */
function allMoves(leaf) {
  /** @type {Map<number, Taken[]>} */
  const table = new Map();
  /** @type {(p: number, q: number, way: Taken) => unknown} */
  const add = (p, q, way) => table.set(pairKey(p, q), [...(table.get(pairKey(p, q)) || []), way]);
  for (const [p, q, r, s, t, chance] of leaf.ways || []) add(p, q, [r, s, t, chance]);
  if (leaf.ways) return table;
  for (const [p, q, r, s, t] of leaf.moves) {
    add(p, q, [r, s, t, 1]);
    if (p !== q) add(q, p, [s, r, t, 1]);
  }
  for (const ways of table.values())
    for (const way of ways) way[3] = 1 / ways.length;
  return table;
}

// What an agent is, once for each: its state in every leaf, with what is shown of it.
export class Kind {
  /** @param {Model} model @param {number} id @param {number[]} word */
  constructor(model, id, word) {
    const {net} = model;
    this.id = id;
    this.word = word;
    this.name = word.map((q, i) => net.leaves[i].states[q]).join("/");
    this.shown = word.map((q, i) => net.leaves[i].shown[q]).join("/");
    this.output = combined(net.combine, word.map((q, i) => net.leaves[i].outputs[q]));
    const family = this.output ? 1 : 0;
    this.rank = model.used[family]++;
    /** @type {ReturnType<typeof shade> | null} */
    this.colour = null;
  }
}

export class Model {
  /** @param {Net} net */
  constructor(net) {
    this.net = net;
    this.firsts = net.leaves.map(firstMoves);
    this.tables = net.leaves.map(allMoves);
    /** @type {Kind[]} */
    this.kinds = [];
    /** @type {Map<string, Kind>} */
    this.byKey = new Map();
    // what two kinds become by first moves
    /** @type {Map<number, Become | null>} */
    this.plain = new Map();
    // all that they may become
    /** @type {Map<number, Chosen[]>} */
    this.made = new Map();
    this.used = [0, 0];
    if (net.leaves.length === 1) net.leaves[0].states.forEach((_, q) => this.kind([q]));
  }

  /** @param {number[]} word */
  kind(word) {
    const key = word.join();
    let found = this.byKey.get(key);
    if (!found) {
      found = new Kind(this, this.kinds.length, word);
      this.kinds.push(found);
      this.byKey.set(key, found);
    }
    return found;
  }

  /** @param {Counts} counts */
  start(counts) {
    /** @type {Kind[]} */
    const agents = [];
    const {leaves, names} = this.net;
    names.forEach((name, i) => {
      for (let k = 0; k < (counts[name] || 0); k++) agents.push(this.kind(leaves.map((leaf) => leaf.inputs[i])));
    });
    leaves[0].helpers.forEach((_, j) => agents.push(this.kind(leaves.map((leaf) => leaf.helpers[j]))));
    return agents;
  }

  // What is known of two kinds, asked for once.
  /**
   * @template V
   * @param {Map<number, V>} table
   * @param {Kind} one
   * @param {Kind} two
   * @param {() => V} make
   * @returns {V}
   */
  known(table, one, two, make) {
    const key = one.id * 1e7 + two.id;
    const found = table.get(key);
    if (found !== undefined) return found;
    const made = make();
    table.set(key, made);
    return made;
  }

  // What two agents become, with the move of each leaf, where each takes its first move; null where nothing changes.
  /** @param {Kind} one @param {Kind} two */
  after(one, two) {
    return this.known(this.plain, one, two, () => this.byFirst(one.word, two.word));
  }

  /** @param {number[]} one @param {number[]} two @returns {Become | null} */
  byFirst(one, two) {
    const [first, second] = [[...one], [...two]];
    /** @type {TakenMoves} */
    const moves = [];
    this.firsts.forEach((table, i) => {
      const made = table.get(pairKey(one[i], two[i]));
      if (!made) return;
      [first[i], second[i]] = made;
      moves.push([i, made[2]]);
    });
    return moves.length ? {first: this.kind(first), second: this.kind(second), moves} : null;
  }

  // All that an initiator and a responder may become, each with its chance; what the chances leave is that nothing
  // changes.
  /** @param {Kind} one @param {Kind} two */
  options(one, two) {
    return this.known(this.made, one, two, () => this.byChance(one, two));
  }

  /** @param {Kind} one @param {Kind} two @returns {Chosen[]} */
  byChance(one, two) {
    /** @type {[first: number[], second: number[], moves: TakenMoves, chance: number][]} */
    let ways = [[[], [], [], 1]];
    this.tables.forEach((table, i) => {
      const [p, q] = [one.word[i], two.word[i]];
      const made = table.get(pairKey(p, q)) || [];
      const left = 1 - made.reduce((sum, way) => sum + way[3], 0);
      /** @type {Taken[]} */
      const all = left > LEAST ? [...made, [p, q, null, left]] : made;
      /** @type {typeof ways} */
      const next = [];
      for (const [first, second, moves, chance] of ways) {
        for (const [r, s, t, part] of all) {
          const isStill = t === null || (r === p && s === q);
          next.push([[...first, r], [...second, s], isStill ? moves : [...moves, [i, t]], chance * part]);
        }
      }
      ways = next;
    });
    const plain = String(this.after(one, two)?.moves);
    const some = ways.filter(([, , moves]) => moves.length);
    return some.map(([first, second, moves, chance]) => {
      const isPlain = String(moves) === plain;
      return {first: this.kind(first), second: this.kind(second), moves, chance, isPlain};
    });
  }

  // By which chance something changes.
  /** @param {Kind} one @param {Kind} two */
  share(one, two) {
    return this.options(one, two).reduce((sum, way) => sum + way.chance, 0);
  }

  // What two agents become by one move of one leaf, the first of them as its first.
  /**
   * @param {Kind} one
   * @param {Kind} two
   * @param {number} leaf
   * @param {number} move
   * @returns {Become | null}
   */
  taken(one, two, leaf, move) {
    const all = this.net.leaves[leaf].moves;
    const [p, q, r, s] = all.find((each) => each[4] === move) ?? [-1, -1, -1, -1];
    if (one.word[leaf] !== p || two.word[leaf] !== q) return null;
    const [first, second] = [[...one.word], [...two.word]];
    [first[leaf], second[leaf]] = [r, s];
    return {first: this.kind(first), second: this.kind(second), moves: [[leaf, move]]};
  }

  /** @param {Kind} kind */
  colour(kind) {
    const many = this.net.leaves.length === 1 ? this.used[kind.output ? 1 : 0] : 8;
    kind.colour ??= shade(kind.output, kind.rank, many);
    return kind.colour;
  }
}

// Blues say true, oranges false; within a family lightness, then hue, tells apart. Shape says the output too.
/** @param {boolean} output @param {number} at @param {number} count */
export function shade(output, at, count) {
  const [low, high] = output ? [180, 310] : [15, 100];
  const middle = output ? 245 : 50;
  const lights = [0.56, 0.76, 0.42, 0.66, 0.86];
  const light = lights[at % lights.length];
  const hue = count <= 3 ? middle : low + (high - low) * (((at * 0.618034) % 1 + (count <= 12 ? 0.4 : 0)) % 1);
  const fill = `oklch(${light} ${light > 0.8 ? 0.09 : 0.13} ${hue.toFixed(0)})`;
  return {fill, ink: light > 0.62 ? "#111" : "#fff"};
}

// A generator of numbers in [0, 1) from a seed (mulberry32), so that a random play can be done again.
/** @param {number} seed */
export function generator(seed) {
  let a = seed >>> 0;
  return () => {
    a = (a + 0x6d2b79f5) >>> 0;
    let t = Math.imul(a ^ (a >>> 15), 1 | a);
    t = (t + Math.imul(t ^ (t >>> 7), 61 | t)) ^ t;
    return ((t ^ (t >>> 14)) >>> 0) / 4294967296;
  };
}
