// Join: the text's net and another one side by side, and one of both: `and`, `or`, or the negation, with their proofs.
import {post, Slot} from "./api.js";
import {badge, kindOf} from "./badge.js";
import {clear, h} from "./dom.js";
import {sizesTold} from "./names.js";
import {NetPicture} from "./netpicture.js";
import {stopped, toldOf} from "./refused.js";
import {store} from "./store.js";

const PAUSE = 400; // milliseconds without a keystroke before the other text is read
const MOST_FAULTS = 3;
const ABOUT =
  "Two nets in one crowd, each agent in a state of both; or the negation of the text's. The program says what it " +
  "makes of the joined proof.";
/** @type {Record<ProofState, string>} */
const PROOFS = {
  whole: "with a whole proof",
  open: "with a proof that has open parts",
  none: "without a proof"
};

// What a text's net computes, and how much of a proof it has.
/** @param {Net} net @param {ProofState} proof */
function about(net, proof) {
  return [net.predicate ? h("code", {}, net.predicate) : "no predicate", `, ${PROOFS[proof]}`];
}

/** @param {Mark} fault */
function faultShown({line, told}) {
  return h("span", {class: "bad line"}, line ? `line ${line}: ` : "", told);
}

// One of the two nets: what it computes, and its picture.
class Side {
  /** @param {string} word @param {string} title @param {...Kid} kids */
  constructor(word, title, ...kids) {
    this.slot = new Slot();
    this.picture = new NetPicture(word);
    this.about = h("p", {class: "small", role: "status"});
    const parts = [h("h3", {}, title), kids, this.about, this.picture.element];
    this.element = h("section", {class: "side", "aria-label": title}, parts);
    this.drawnFor = "";
  }

  /** @param {...Kid} words */
  say(...words) {
    clear(this.about, words);
  }

  /** @param {...Kid} words */
  nothing(...words) {
    this.say(...words);
    this.picture.wipe();
    this.drawnFor = "";
  }

  /** @param {Net} net @param {ProofState} proof @param {object} request */
  async draw(net, proof, request) {
    this.say(about(net, proof));
    const key = JSON.stringify(net);
    if (this.drawnFor === key) return;
    try {
      const done = await this.slot.run("net", request);
      this.drawnFor = key;
      this.picture.draw(net, done);
    } catch (error) {
      if (!stopped(error)) this.nothing(toldOf(error).join(" "));
    }
  }
}

export class Join {
  /** @param {HTMLElement} panel @param {{replace: (text: string) => void}} page */
  constructor(panel, {replace}) {
    this.replace = replace;
    this.slot = new Slot();
    this.reading = new Slot();
    this.isShown = false;
    this.timer = 0;
    const look = {spellcheck: "false", autocomplete: "off"};
    const label = "The other protocol, with its proof";
    const other = {"aria-label": label, placeholder: "the other protocol, with its proof"};
    this.other = h("textarea", {rows: 7, class: "wide", ...look, ...other, oninput: () => this.later()});
    const offered = h("option", {value: ""}, "Take an example…");
    this.examples = h("select", {"aria-label": "Take an example", onchange: () => this.take()}, offered);
    const where = "Where variables start that one of them lacks, as in y=B";
    this.starts = h("input", {type: "text", ...look, placeholder: "y=B", "aria-label": where});
    this.told = h("div", {class: "outcome", "aria-live": "polite"});
    this.first = new Side("first", "The text");
    this.second = new Side("second", "The other", this.examples, this.other);
    const starts = "A variable that only one of them has: where its agents start in the other";
    panel.append(
      h("p", {class: "small"}, ABOUT),
      h(
        "div",
        {class: "row"},
        this.button("and", "Both: and", "True where both are true"),
        this.button("or", "One of them: or", "True where at least one is true"),
        this.button("not", "Not the text's", "The text's net with its outputs exchanged"),
        h("label", {title: starts}, h("span", {class: "small"}, "starts"), this.starts),
      ),
      this.told,
      h("div", {class: "sides"}, this.first.element, this.second.element),
    );
    store.on("read", () => this.renew());
    store.on("text", () => this.told.childElementCount && this.told.classList.add("old"));
  }

  /**
   * @param {string} how
   * @param {string} text
   * @param {string} title
   */
  button(how, text, title) {
    return h("button", {type: "button", title, onclick: () => this.join(how)}, text);
  }

  /** @param {boolean} isShown */
  show(isShown) {
    this.isShown = isShown;
    this.renew();
  }

  /** @param {Example[]} examples */
  offer(examples) {
    this.examples.append(...examples.map((one) => h("option", {value: one.name}, one.name)));
  }

  renew() {
    if (!this.isShown) return;
    const {net, proof, text} = store;
    if (net) this.first.draw(net, proof, {text});
    else this.first.nothing("There is no text that can be read.");
    if (!this.other.value.trim()) this.second.nothing("Write another protocol here, or take an example.");
  }

  // ---- the other text

  async take() {
    const name = this.examples.value;
    if (!name) return;
    this.other.value = (await post("/example", {name})).text;
    this.read();
  }

  later() {
    clearTimeout(this.timer);
    this.timer = setTimeout(() => this.read(), PAUSE);
  }

  async read() {
    const text = this.other.value;
    if (!text.trim()) return this.renew();
    try {
      const found = await this.reading.run("read", {text, member: 0});
      if (found.net) return this.second.draw(found.net, found.proof, {text, member: 0});
      const faults = found.faults.slice(0, MOST_FAULTS).map(faultShown);
      this.second.nothing(faults);
    } catch (error) {
      if (!stopped(error)) this.second.nothing(toldOf(error).join(" "));
    }
  }

  // ---- both

  /** @param {string} how */
  async join(how) {
    clear(this.told, h("p", {class: "small"}, "…"));
    this.told.classList.remove("old");
    try {
      const request = {text: store.text, other: this.other.value, how, starts: this.starts.value};
      this.shown(await this.slot.run("join", request));
    } catch (error) {
      clear(this.told, stopped(error) ? null : h("pre", {class: "bad"}, toldOf(error).join("\n")));
    }
  }

  /** @param {Made} done */
  shown(done) {
    const {good, line} = done.answer;
    const kind = kindOf(done.answer);
    const put = () => {
      this.replace(done.text);
      if (good) store.know(kind, line, store.version);
    };
    const sizes = sizesTold(done.leaves);
    clear(
      this.told,
      badge(kind, `${line} by the program`),
      h("p", {class: "summary"}, h("code", {}, done.form), `: ${sizes}.`),
      good ? null : h("p", {}, "The proofs don't carry over: put it into the editor, and look for others."),
      h("button", {type: "button", class: "main", onclick: put}, "Put it into the editor"),
    );
  }
}
