// Play: a crowd and its controls. Two agents that are chosen meet; a list of meetings from elsewhere is watched.
import {family, isStill, Slot} from "./api.js";
import {Claims} from "./claims.js";
import {Crowd, MOST, nobody} from "./crowd.js";
import {clear, h} from "./dom.js";
import {assumedText} from "./names.js";
import {Picture} from "./picture.js";
import {stopped, toldOf} from "./refused.js";
import {store} from "./store.js";
import {TimeLine} from "./timeline.js";
import {crowdList} from "./way.js";

const COINS =
  "Where several moves stand for the same two states, one of them is drawn, by its chance where it has one. " +
  "The program's `play` takes the first.";
const BEGIN = 700;        // milliseconds before a list of meetings begins by itself
const SLOW = [14, 42];    // speeds at which short and long lists begin
const LONG = 60;          // meetings
const USUAL = [12, 5, 4]; // agents of the first variables
const USUAL_MORE = 3;

export class Play {
  /** @param {HTMLElement} panel */
  constructor(panel) {
    this.panel = panel;
    this.crowd = nobody();
    this.hasNet = false; // whether there was one
    /** @type {Counts} */
    this.counts = {};
    // a list of meetings from elsewhere: a counterexample, a journal, what `settle` takes
    /** @type {Watched | null} */
    this.watched = null;
    /** @type {HTMLInputElement[]} */
    this.fields = [];
    this.slot = new Slot();
    this.inputs = h("div", {class: "inputs"});
    this.banner = h("div", {class: "banner", hidden: true});
    this.stage = h("div", {class: "stage"});
    this.picture = new Picture(this.stage, (i) => this.choose(i));
    this.line = new TimeLine(this.picture, {
      restart: () => this.start(),
      pair: () => this.pair(),
      begun: () => this.begun(),
      seen: () => this.seen(),
      rested: () => this.claims.rest(),
    });
    this.claims = new Claims(this.picture, this.line);
    const {claims, line} = this;
    this.stage.append(this.picture.field, claims.hint);
    this.empty = h("p", {class: "none"}, "Write a protocol on the left, or take an example from the menu.");
    const title = "What the proof's layers take, move by move, as the program's `settle` makes it";
    const settle = () => this.settle();
    this.settling = h("button", {type: "button", hidden: true, title, onclick: settle}, "As the proof goes");
    const top = [this.inputs, this.banner, h("div", {class: "crowdbox"}, claims.chips.element, claims.share)];
    const side = h("div", {class: "playside"}, claims.said, claims.way);
    this.body = h("div", {class: "play", hidden: true}, top, this.stage, line.foot, line.bar, side);
    this.panel.append(this.empty, this.body);
    this.panel.addEventListener("keydown", (event) => this.key(event));
    store.on("net", () => this.renew());
    store.on("read", () => this.marks());
  }

  // ---- the crowd's input

  // The net was changed: the crowd begins anew, with the same counts where they fit.
  renew() {
    this.line.stop();
    this.unwatch();
    const {net} = store;
    this.empty.hidden = Boolean(net);
    this.body.hidden = !net;
    if (!net) return;
    this.crowd = this.line.crowd = this.claims.crowd = new Crowd(net);
    this.hasNet = true;
    const before = this.counts;
    this.counts = {};
    net.names.forEach((name, i) => (this.counts[name] = before[name] ?? USUAL[i] ?? USUAL_MORE));
    this.fields = net.names.map((name) => this.field(name));
    this.settling.hidden = true;
    const labels = net.names.map((name, i) => h("label", {class: "count-of"}, h("b", {}, name), this.fields[i]));
    const notes = [this.helpers(net), this.assumed(net), this.coins(net), this.members()];
    clear(this.inputs, labels, notes, this.settling, this.claims.value);
    this.start();
  }

  /** @param {string} name */
  field(name) {
    const look = {type: "number", min: 0, max: MOST, id: `count-${name}`, inputmode: "numeric"};
    const field = h("input", {...look, value: this.counts[name]});
    field.addEventListener("change", () => {
      this.counts[name] = Math.max(0, Math.min(MOST, Math.floor(Number(field.value)) || 0));
      this.unwatch();
      this.start();
    });
    return field;
  }

  /** @param {Net} net */
  helpers(net) {
    const many = net.leaves[0].helpers.length;
    return many ? h("span", {class: "small"}, `and ${many} helper${many > 1 ? "s" : ""}`) : null;
  }

  /** @param {Net} net */
  assumed(net) {
    if (!net.assumed.length) return null;
    const title = assumedText(net).trim();
    return h("span", {class: "small", title}, "assumes ", h("code", {}, net.assumed.join(" && ")));
  }

  /** @param {Net} net */
  coins(net) {
    if (!net.leaves.some((leaf) => leaf.hidden || leaf.ways)) return null;
    return h("span", {class: "small", title: COINS}, "coins are tossed");
  }

  // Of a family, which member is played.
  members() {
    if (isStill || !store.members.length) return null;
    const option = (/** @type {string} */ name, /** @type {number} */ i) =>
      h("option", {value: i, selected: i === family.member}, name);
    const select = h("select", {"aria-label": "Member of the family"}, store.members.map(option));
    select.addEventListener("change", () => {
      family.member = Number(select.value);
      store.read();
    });
    return select;
  }

  // What is shown of a text that is another, or has a proof.
  marks() {
    this.body.classList.toggle("old", store.net !== null && !store.isRead);
    if (!this.hasNet) return;
    this.claims.hint.textContent = this.claims.hintText();
    this.settling.hidden = isStill || store.proof !== "whole" || !store.isRead;
  }

  start() {
    this.line.stop();
    if (this.watched) return this.line.go(0);
    this.claims.forget();
    this.crowd.start(this.counts);
    this.picture.draw(this.crowd);
    this.seen();
    this.claims.rest();
  }

  // ---- meetings

  /** @param {number} i */
  choose(i) {
    this.line.stop();
    const {picture} = this;
    if (picture.chosen < 0) picture.chosen = i;
    else if (picture.chosen === i) picture.chosen = -1;
    else {
      const one = picture.chosen;
      picture.chosen = -1;
      this.unwatch();
      this.line.meet(one, i);
    }
    picture.setFocus(i);
    picture.paintAll();
    this.seen();
    this.claims.rest();
  }

  // Two agents that meet next, where there are such: in a list that is watched there are no others than its own.
  /** @returns {[number, number] | null} */
  pair() {
    if (this.watched) return null;
    return this.line.onlyChanges ? this.crowd.changing() : this.crowd.any();
  }

  begun() {
    if (this.watched && this.crowd.isAtEnd) this.line.go(0);
    this.picture.chosen = -1;
    this.picture.ended = null;
    this.picture.paintAll();
    this.claims.forget();
    this.claims.showSaid();
  }

  seen() {
    this.line.show();
    this.claims.show();
    if (this.banner.hidden) return;
    const rows = this.banner.querySelectorAll("li");
    rows.forEach((row) => row.classList.toggle("here", Number(row.dataset.at) === this.crowd.at));
  }

  /** @param {KeyboardEvent} event */
  key(event) {
    const {target} = event;
    if (!(target instanceof Element) || event.ctrlKey || event.metaKey || event.altKey || !this.hasNet) return;
    if (target.matches("input[type=number], input[type=text], textarea, select")) return;
    const {picture, line} = this;
    /** @type {Record<string, () => void>} */
    const on = {r: () => this.start(), R: () => this.start()};
    if (target.closest(".agent")) {
      on.Enter = () => this.choose(picture.focus);
      on[" "] = () => this.choose(picture.focus);
      on.Escape = () => {
        if (picture.chosen >= 0) this.choose(picture.chosen);
      };
      on.ArrowLeft = () => picture.near(-1, 0);
      on.ArrowRight = () => picture.near(1, 0);
      on.ArrowUp = () => picture.near(0, -1);
      on.ArrowDown = () => picture.near(0, 1);
    } else if (!target.matches("input[type=range]")) {
      if (!target.matches("button, summary, a")) on[" "] = () => line.toggle();
      on.ArrowLeft = () => line.back();
      on.ArrowRight = () => line.step();
    }
    if (!on[event.key]) return;
    event.preventDefault();
    on[event.key]();
  }

  // ---- a list of meetings from elsewhere

  // A counterexample.
  /** @param {Flaw} flaw */
  animate(flaw) {
    const {counts, meetings, told} = flaw;
    if (!meetings) return;
    this.watch({title: "A crowd that goes wrong. ", told: told[0], counts, meetings, bad: true});
  }

  // What the program's `settle` takes from here on is shown move by move.
  async settle() {
    try {
      const done = await this.slot.run("settle", {text: store.text, counts: this.counts});
      const told = "The program makes the first move that the proof's layers allow, again and again.";
      const words = "settled by the program";
      this.watch({...done, title: "As the proof goes. ", told, by: "played", words});
    } catch (error) {
      if (!stopped(error)) store.tell("says", toldOf(error).join(" "));
    }
  }

  // A list of meetings is gone through, from its own crowd on.
  /** @param {Watched} list */
  watch(list) {
    this.line.stop();
    if (!this.hasNet) return;
    this.unwatch();
    const {names} = this.crowd.model.net;
    for (const name of names) this.counts[name] = list.counts[name] || 0;
    this.fields.forEach((field, i) => (field.value = String(this.counts[names[i]])));
    this.start();
    this.watched = this.claims.list = list;
    this.crowd.load(list.meetings);
    const go = (/** @type {number} */ at) => {
      this.line.stop();
      this.line.go(at);
    };
    this.banner.hidden = false;
    this.banner.classList.toggle("bad", Boolean(list.bad));
    clear(
      this.banner,
      h("div", {class: "grow"}, h("b", {}, list.title), list.told, crowdList(this.crowd, go)),
      h("button", {type: "button", onclick: () => this.leave()}, "Leave it"),
    );
    this.line.slowTo(SLOW[Number(list.meetings.length > LONG)]);
    this.seen();
    setTimeout(() => {
      if (this.watched === list && !this.line.playing && this.crowd.at === 0) this.line.toggle();
    }, BEGIN);
  }

  unwatch() {
    this.watched = this.claims.list = null;
    this.banner.hidden = true;
  }

  leave() {
    this.unwatch();
    this.start();
  }
}
