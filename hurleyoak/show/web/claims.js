// What is said of the crowd of Play, and by whom: counts, the last meetings, and what the program plays at each rest.
import {isStill, Slot} from "./api.js";
import {badge} from "./badge.js";
import {inOrder, MOST, nobody} from "./crowd.js";
import {clear, h} from "./dom.js";
import {stopped, toldOf} from "./refused.js";
import {store} from "./store.js";
import {moveText} from "./way.js";

const REST = 500; // milliseconds of rest before the program is asked
const SHOWN_WAY = 7;
const MOST_CHIPS = 16; // states of a net, up to which those that nobody is in are shown too

/** @typedef {{kind: Kind, chip: HTMLElement, number: Text}} Chip */
/** @typedef {{at: number, history: Meeting[]}} When */

// Whether a tally is a crowd of the program's, by names.
/** @param {Tally} tally @param {Counts} crowd */
function isSame(tally, crowd) {
  return Object.keys(crowd).length === tally.size && [...tally].every(([kind, k]) => crowd[kind.name] === k);
}

/** @param {string[]} assumed */
function leftOutTold(assumed) {
  const code = h("code", {}, assumed.join(" && "));
  const end = ". What the predicate says here doesn't count.";
  return h("p", {class: "warning"}, "The text leaves this input out: it assumes ", code, end);
}

// How many agents are of each kind: elements are made anew only where the kinds are others.
class Chips {
  constructor() {
    this.element = h("div", {class: "chips", "aria-live": "off"});
    /** @type {Chip[]} */
    this.shown = [];
  }

  /** @param {Crowd} crowd */
  show(crowd) {
    const {net, kinds} = crowd.model;
    const isFew = net.leaves.length === 1 && net.leaves[0].states.length <= MOST_CHIPS;
    const wanted = isFew ? [...kinds].sort(inOrder) : crowd.kinds();
    const isSame = wanted.length === this.shown.length && wanted.every((kind, i) => this.shown[i].kind === kind);
    if (!isSame) this.build(crowd, wanted);
    for (const {kind, chip, number} of this.shown) {
      const count = crowd.tally.get(kind) || 0;
      chip.classList.toggle("none-of", !count);
      if (number.data !== String(count)) number.data = String(count);
    }
  }

  /** @param {Crowd} crowd @param {Kind[]} wanted */
  build(crowd, wanted) {
    this.shown = wanted.map((kind) => {
      const number = document.createTextNode("0");
      const vars = {"--fill": crowd.model.colour(kind).fill};
      const dot = h("i", {class: kind.output ? "round" : "square", vars});
      return {kind, number, chip: h("span", {class: "chip"}, dot, kind.name, h("b", {}, number))};
    });
    clear(this.element, this.shown.map(({chip}) => chip));
  }
}

export class Claims {
  // `line` is the time line, `picture` that of the agents.
  /** @param {import("./picture.js").Picture} picture @param {import("./timeline.js").TimeLine} line */
  constructor(picture, line) {
    this.picture = picture;
    this.line = line;
    this.crowd = nobody();
    // the list of meetings that is watched
    /** @type {Watched | null} */
    this.list = null;
    // what the program said, for which meetings
    /** @type {When & ({told: string[]} | {told: null, answer: Played, same: boolean}) | null} */
    this.last = null;
    this.slot = new Slot();
    this.timer = 0;
    this.chips = new Chips();
    this.share = h("div", {class: "share", role: "img"});
    this.hint = h("p", {class: "hint", role: "status", "aria-live": "polite"});
    this.said = h("div", {class: "said", "aria-live": "polite"});
    this.way = h("ol", {class: "way", "aria-label": "The last meetings"});
    this.value = h("span", {class: "value"});
  }

  // Nothing is known of a crowd that begins.
  forget() {
    this.last = null;
  }

  // ---- the crowd as it stands

  show() {
    const {crowd} = this;
    this.chips.show(crowd);
    this.showShare(crowd.sayTrue(), crowd.agents.length);
    this.hint.textContent = this.hintText();
    this.showWay();
    const {last} = crowd;
    const change = last && last[2] && last[4] ? {before: last[2], after: last[4]} : null;
    store.tell("crowd", {net: crowd.model.net, tally: crowd.tally, meetings: crowd.at, last: change});
  }

  /** @param {number} yes @param {number} n */
  showShare(yes, n) {
    this.share.classList.toggle("none-of", !n);
    this.share.style.setProperty("--yes", String(n ? yes / n : 0));
    this.share.setAttribute("aria-label", `${yes} agents say true, ${n - yes} false`);
    const no = n - yes;
    clear(
      this.share,
      h("span", {class: "yes"}, yes ? `${yes} say true` : ""),
      h("span", {class: "no"}, no ? `${no} say false` : ""),
    );
  }

  hintText() {
    const {crowd, picture} = this;
    if (!store.isRead) return "The text can't be read: this is the net before.";
    if (crowd.tooMany) return `The page draws up to ${MOST} agents. Behaviour takes up to 1,000,000,000.`;
    if (crowd.tooFew) return "A crowd has two agents or more.";
    if (picture.chosen >= 0) {
      const who = `Agent ${picture.chosen} in ${crowd.agents[picture.chosen].shown}`;
      return `${who} meets whom? Those that stay bright would change something.`;
    }
    const isBegin = crowd.at === 0 && !this.line.playing;
    return isBegin ? "Choose two agents, and they meet. Circles say true, squares false." : "";
  }

  showWay() {
    const {at, history, model} = this.crowd;
    /** @type {HTMLElement[]} */
    const rows = [];
    for (let k = at - 1; k >= 0 && rows.length < SHOWN_WAY; k--) {
      const [a, b, before, moves] = history[k];
      const told = moves ? moves.map(([leaf, t]) => moveText(model.net, leaf, t)) : "nothing changes";
      const number = h("span", {class: "small"}, `${k + 1}`);
      rows.push(h("li", {class: before ? "" : "idle"}, number, h("code", {}, `${a} ${b}`), told));
    }
    clear(this.way, rows);
  }

  // ---- who says it

  // At rest the program is asked to play the same.
  rest() {
    clearTimeout(this.timer);
    this.slot.stop();
    this.showSaid();
    if (this.line.playing || this.crowd.agents.length < 2 || !store.isRead || isStill || this.list?.by) return;
    if (this.crowd.isPlain()) this.timer = setTimeout(() => this.ask(), REST);
  }

  async ask() {
    const {at, history} = this.crowd;
    try {
      const meetings = history.slice(0, at).map(([a, b]) => [a, b]);
      const answer = await this.slot.run("play", {text: store.text, counts: this.crowd.counts, meetings});
      if (this.crowd.at !== at || this.crowd.history !== history || this.line.playing) return;
      const same = isSame(this.crowd.tally, answer.crowd);
      this.last = {told: null, answer, same, at, history};
      const isEnd = answer.terminal && same && answer.value !== null && !answer.leftOut.length;
      this.picture.ended = isEnd ? answer.value : null;
      this.picture.paintAll();
    } catch (error) {
      if (stopped(error)) return;
      this.last = {told: toldOf(error), at, history};
    }
    this.showSaid();
  }

  // What the outputs are, where nothing changes any more.
  outcome() {
    const outputs = new Set(this.crowd.agents.map((kind) => kind.output));
    return {outputs, says: outputs.size === 1 ? `all say ${[...outputs][0]}` : "they don't agree"};
  }

  showSaid() {
    const {crowd} = this;
    const {playing} = this.line;
    const {last} = this;
    const isNow = !playing && last && last.at === crowd.at && last.history === crowd.history;
    clear(this.value);
    if (crowd.agents.length < 2) return clear(this.said);
    if (this.list?.by && !playing) return clear(this.said, this.ofList(this.list, this.list.by));
    if (!isNow) return clear(this.said, this.byPage());
    if (last.told) return clear(this.said, badge("told"), last.told.map((line) => h("p", {}, line)));
    const {answer} = last;
    if (!last.same) {
      const other = Object.entries(answer.crowd).map(([name, k]) => `${k} ${name}`).join(", ");
      const by = badge("rejected", "the program plays these meetings to another crowd");
      return clear(this.said, by, h("p", {}, other));
    }
    clear(this.said, this.byProgram(answer));
    if (answer.value === null) return;
    clear(this.value, h("code", {}, crowd.model.net.predicate), " is ", h("b", {}, String(answer.value)), " here");
  }

  byPage() {
    const {playing} = this.line;
    const isAsked = !isStill && !playing && this.crowd.isPlain();
    const by = badge("told", isAsked ? "the program is asked…" : "played by the page");
    if (isAsked || playing || !this.crowd.isTerminal()) return [by];
    return [by, h("p", {}, `No meeting changes anything any more, and ${this.outcome().says}.`)];
  }

  // A list that the program made itself: at its end the crowds are compared.
  /** @param {Watched} list @param {BadgeKind} by */
  ofList({end, words, last}, by) {
    if (!this.crowd.isAtEnd) return badge(by, words);
    if (end && !isSame(this.crowd.tally, end)) return badge("rejected", "the program comes to another crowd");
    return [badge(by, words), h("p", {}, `The end: ${last}. The program comes to this same crowd.`)];
  }

  /** @param {Played} last */
  byProgram(last) {
    const {outputs, says} = this.outcome();
    const isMeant = last.value !== null && !last.leftOut.length;
    const bad = last.terminal && isMeant && (outputs.size !== 1 || !outputs.has(Boolean(last.value)));
    const wrong = bad ? `: wrong, the predicate is ${last.value} here` : "";
    const end = `No meeting changes anything any more, and ${says}${wrong}.`;
    const change = `Agents ${last.enabled?.join(" and ")} would change something.`;
    const told = last.terminal ? h("p", {class: bad ? "bad" : ""}, end) : h("p", {class: "small"}, change);
    const many = `${last.meetings.toLocaleString("en")} meeting${last.meetings === 1 ? "" : "s"}`;
    return [
      badge("played"),
      last.leftOut.length ? leftOutTold(last.leftOut) : null,
      h("p", {}, `${many}, this crowd: `, h("code", {}, last.line)),
      told,
    ];
  }
}
