// A crowd that meets: what each agent is, the meetings so far, forth and back. Nothing is drawn here.
import {generator, Model, NO_NET} from "./model.js";

export const MOST = 300; // agents drawn
export const MOST_MEETINGS = 200_000;

export class Crowd {
  /** @param {Net} net */
  constructor(net) {
    this.model = new Model(net);
    /** @type {Kind[]} */
    this.agents = [];
    /** @type {Counts} */
    this.counts = {}; // of the input
    /** @type {Meeting[]} */
    this.history = [];
    this.at = 0; // meetings made, of those of the history
    /** @type {Tally} */
    this.tally = new Map();
    // whether it is terminal, where that was asked since it changed
    /** @type {boolean | undefined} */
    this.known = undefined;
    this.tooMany = this.tooFew = false;
    this.random = generator(1);
  }

  // The input's crowd; empty where it has more agents than are drawn.
  /** @param {Counts} counts */
  start(counts, seed = 1) {
    this.counts = {...counts};
    this.history = [];
    this.at = 0;
    this.random = generator(seed);
    this.agents = this.model.start(counts);
    this.tooMany = this.agents.length > MOST + this.model.net.leaves[0].helpers.length;
    this.tooFew = this.agents.length < 2;
    if (this.tooMany) this.agents = [];
    this.recount();
  }

  // A list of meetings from the start, to be gone through: two agents each, or also a leaf and a move, which is then
  // taken there alone.
  /** @param {number[][]} meetings */
  load(meetings) {
    const kinds = [...this.agents];
    this.at = 0;
    this.history = meetings.map(([a, b, ...take]) => {
      const item = this.item(a, b, kinds[a], kinds[b], take);
      if (item[4]) [kinds[a], kinds[b]] = item[4];
      return item;
    });
  }

  // How many agents there are of each kind.
  recount() {
    this.known = undefined;
    this.tally = new Map();
    for (const kind of this.agents) this.tally.set(kind, (this.tally.get(kind) || 0) + 1);
  }

  /** @param {number} i @param {Kind} kind */
  become(i, kind) {
    const before = this.agents[i];
    if (before === kind) return;
    this.known = undefined;
    const left = (this.tally.get(before) || 0) - 1;
    if (left) this.tally.set(before, left);
    else this.tally.delete(before);
    this.tally.set(kind, (this.tally.get(kind) || 0) + 1);
    this.agents[i] = kind;
  }

  // Two agents meet, the first as the initiator; whether that changes something. It is sure to where only such
  // meetings are made.
  /** @param {number} a @param {number} b */
  meet(a, b, isSure = false) {
    this.history.length = this.at;
    const way = this.drawn(a, b, isSure);
    const isPlain = way ? way.isPlain : !this.model.after(this.agents[a], this.agents[b]);
    this.history.push(this.made(a, b, this.agents[a], this.agents[b], way, isPlain));
    return this.advance()[2];
  }

  // What comes of a meeting, by chance where it may come out in several ways; null where nothing changes.
  /** @param {number} a @param {number} b @param {boolean} isSure */
  drawn(a, b, isSure) {
    const ways = this.model.options(this.agents[a], this.agents[b]);
    if (!ways.length || ways[0].chance === 1) return ways[0] || null;
    let left = this.random() * (isSure ? this.model.share(this.agents[a], this.agents[b]) : 1);
    return ways.find((way) => (left -= way.chance) < 0) || (isSure && ways.at(-1)) || null;
  }

  // Whether the meetings so far are those of the program's `play`, which takes the first move of each two states.
  isPlain() {
    return this.history.slice(0, this.at).every((item) => item[5]);
  }

  /**
   * @param {number} a
   * @param {number} b
   * @param {Kind} one
   * @param {Kind} two
   * @param {Become | null} way
   * @param {boolean} isPlain
   * @returns {Meeting}
   */
  made(a, b, one, two, way, isPlain) {
    return way ? [a, b, [one, two], way.moves, [way.first, way.second], isPlain] : [a, b, null, null, null, isPlain];
  }

  // A meeting of a list, as the program makes it: by a move of a leaf that is taken there alone, or by the first moves.
  /** @param {number} a @param {number} b @param {Kind} one @param {Kind} two @param {number[]} take */
  item(a, b, one, two, take) {
    const [leaf, move] = take;
    const way = take.length ? this.model.taken(one, two, leaf, move) : this.model.after(one, two);
    return this.made(a, b, one, two, way, true);
  }

  // The next meeting of the history: its two agents, and whether it changes something.
  /** @returns {Met} */
  advance() {
    const [a, b, , , after] = this.history[this.at++];
    if (after) {
      this.become(a, after[0]);
      this.become(b, after[1]);
    }
    return [a, b, Boolean(after)];
  }

  // To after so many meetings of the history.
  /** @param {number} to */
  go(to) {
    const end = Math.max(0, Math.min(this.history.length, to));
    while (this.at > end) {
      const [a, b, before] = this.history[--this.at];
      if (before) [this.agents[a], this.agents[b]] = before;
    }
    this.recount();
    while (this.at < end) this.advance();
  }

  // The meeting that was made last; null at the start.
  get last() {
    return this.at ? this.history[this.at - 1] : null;
  }

  get isAtEnd() {
    return this.at >= this.history.length;
  }

  // Any two agents; null where no meeting changes anything.
  /** @returns {[number, number] | null} */
  any() {
    const n = this.agents.length;
    if (this.isTerminal()) return null;
    const a = Math.floor(this.random() * n);
    const b = Math.floor(this.random() * (n - 1));
    return [a, b >= a ? b + 1 : b];
  }

  // An initiator and a responder whose meeting may change something, as likely as it does.
  /** @returns {[number, number] | null} */
  changing() {
    /** @type {[one: Kind, two: Kind, upTo: number][]} */
    const pairs = [];
    let sum = 0;
    /** @type {(one: Kind, two: Kind, many: number) => void} */
    const add = (one, two, many) => {
      const weight = many && many * this.model.share(one, two);
      if (weight) pairs.push([one, two, (sum += weight)]);
    };
    const here = [...this.tally];
    here.forEach(([one, m]) => here.forEach(([two, k]) => add(one, two, one === two ? m * (m - 1) : m * k)));
    if (!sum) return null;
    const drawn = this.random() * sum;
    const [one, two] = pairs.find(([, , upTo]) => drawn < upTo) ?? pairs[pairs.length - 1];
    const a = this.someone(one, -1);
    return [a, this.someone(two, a)];
  }

  // An agent of a kind, other than one.
  /** @param {Kind} kind @param {number} other */
  someone(kind, other) {
    /** @type {number[]} */
    const all = [];
    this.agents.forEach((own, i) => own === kind && i !== other && all.push(i));
    return all[Math.floor(this.random() * all.length)];
  }

  // Whether no meeting changes anything any more.
  isTerminal() {
    this.known ??= !this.someChange();
    return this.known;
  }

  someChange() {
    const here = [...this.tally];
    return here.some(([one, m], i) => here.slice(i).some(([two], j) => (j || m > 1) && this.model.after(one, two)));
  }

  // The kinds that are here, those that say true first.
  kinds() {
    return [...this.tally.keys()].sort(inOrder);
  }

  sayTrue() {
    return [...this.tally].reduce((sum, [kind, k]) => sum + (kind.output ? k : 0), 0);
  }
}

/** @param {Kind} a @param {Kind} b */
export function inOrder(a, b) {
  return Number(b.output) - Number(a.output) || a.rank - b.rank;
}

// The crowd of no net, before there is one.
export function nobody() {
  return new Crowd(NO_NET);
}
