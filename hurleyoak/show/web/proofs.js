// Proof: the proof in the text checked by the program, or one looked for, and then shown.
import {download, Slot} from "./api.js";
import {badge, kindOf, meaning} from "./badge.js";
import {clear, h} from "./dom.js";
import {flawShown, knowFlaw} from "./flaw.js";
import {layersOf, render} from "./proof.js";
import {endShown, Refused} from "./refused.js";
import {store} from "./store.js";
import {Tasks} from "./tasks.js";

const QUICK = 200_000; // signs of a text whose proof is checked as soon as it is read
const PAUSE = 350;
const MOST_SECONDS = 1800;
const USUAL_SECONDS = 60;
/** @type {Record<ProofState, string>} */
const STATES = {
  none: "The text has no proof yet.",
  open: "Parts of the proof are to be found.",
  whole: "The text has a whole proof.",
};
/** @type {Record<ProofState, string>} */
const FIND = {
  none: "Find a proof",
  open: "Find what is open",
  whole: "Find another"
};

// What the program said, in sentences.
/**
 * @param {Answer} answer
 * @param {boolean} isWhole
 */
function saidTold(answer, isWhole) {
  if (answer.good) {
    const kind = kindOf(answer);
    const end = kind === "stable" ? "an answer that stays" : "the end";
    const steps = `Well-chosen steps, at most ${answer.bound} for each agent, lead to ${end}`;
    return `${meaning(kind)} ${steps}${answer.tame ? "" : "; random meetings may take far longer"}.`;
  }
  if (isWhole) return meaning("rejected");
  const open = "Parts are open, or stand for nothing: they are marked in the text.";
  return `${open} The program was asked about the rest.`;
}

export class Proofs {
  /**
   * @param {HTMLElement} panel
   * @param {{animate: (flaw: Flaw) => void, replace: (text: string) => void}} page
   */
  constructor(panel, {animate, replace}) {
    this.panel = panel;
    this.animate = animate;
    this.replace = replace;
    this.slot = new Slot((busy) => this.busy(busy));
    this.version = -1;
    this.timer = 0;
    this.inText = false; // whether the proof that is shown is that of the text
    // what is refused, and was not seen yet
    /** @type {Element | null} */
    this.bad = null;
    this.check = h("button", {type: "button", class: "main", onclick: () => this.doCheck()}, "Check the proof");
    this.find = h("button", {type: "button", class: "main", onclick: () => this.doFind(false)}, "Find a proof");
    const passes = "Passes over what is written of a proof";
    this.anew = h("button", {type: "button", onclick: () => this.doFind(true), title: passes}, "Find anew");
    const mends = "Puts ? in the place of what the program refuses, and looks for that alone";
    const mend = () => this.doFind(false, "mend");
    this.mend = h("button", {type: "button", hidden: true, onclick: mend, title: mends}, "Mend what is refused");
    const look = {type: "number", min: 1, max: MOST_SECONDS, inputmode: "numeric"};
    this.seconds = h("input", {...look, value: USUAL_SECONDS, id: "seconds"});
    this.stop = h("button", {type: "button", onclick: () => this.slot.stop(), hidden: true}, "Stop");
    this.tasks = new Tasks();
    this.head = h("div", {class: "outcome", "aria-live": "polite"});
    this.shown = h("div", {class: "shown"});
    this.empty = h("p", {class: "none"}, "Write a protocol on the left, or take an example from the menu.");
    this.about = h("p", {class: "small"});
    const buttons = [this.check, this.find, this.mend, this.anew];
    const seconds = h("label", {}, h("span", {class: "small"}, "seconds"), this.seconds);
    this.body = h(
      "div",
      {hidden: true},
      h("form", {class: "row", onsubmit: (event) => event.preventDefault()}, buttons, seconds, this.stop),
      this.about,
      this.tasks.element,
      this.head,
      this.shown,
    );
    this.panel.append(this.empty, this.body);
    store.on("net", () => this.renew());
    store.on("read", () => this.renew());
    store.on("text", () => this.stale());
    // a whole proof is checked without being asked for
    this.auto = new Slot();
    store.on("text", () => this.auto.stop());
    store.on("read", () => {
      clearTimeout(this.timer);
      this.timer = setTimeout(() => this.checkQuietly(), PAUSE);
    });
  }

  async checkQuietly() {
    const isKnown = store.known && store.known.version === store.version;
    const isWhole = store.isRead && store.proof === "whole" && store.text.length < QUICK;
    const isFit = isWhole && !store.faults.some((one) => one.kind === "fault");
    if (isKnown || !isFit || this.slot.busy || this.auto.busy) return;
    const {version} = store;
    try {
      const done = await this.auto.run("check", {text: store.text});
      if (version !== store.version || this.slot.busy) return;
      this.begin();
      this.answer(done, version);
      store.mark(done.faults);
    } catch {
      // (the button tells what is wrong)
    }
  }

  renew() {
    this.empty.hidden = Boolean(store.net);
    this.body.hidden = !store.net;
    if (!store.net) return;
    const {proof} = store;
    this.check.hidden = proof === "none";
    this.anew.hidden = proof !== "open";
    this.find.textContent = FIND[proof];
    this.find.classList.toggle("main", proof !== "whole");
    this.about.textContent = store.net.predicate
      ? STATES[proof]
      : "The text has no predicate: a line `computes PREDICATE` says what the protocol is to compute.";
  }

  stale() {
    this.mend.hidden = true;
    if (!this.head.childElementCount) return;
    for (const box of [this.head, this.shown]) box.classList.add("old");
  }

  /** @param {boolean} busy */
  busy(busy) {
    this.stop.hidden = !busy;
    for (const button of [this.check, this.find, this.anew, this.mend]) button.disabled = busy;
    if (!busy) this.tasks.rest();
  }

  begin() {
    clear(this.head);
    clear(this.shown);
    this.tasks.begin();
    this.head.classList.remove("old");
    this.shown.classList.remove("old");
    this.version = store.version;
    if (store.extra.length) store.mark([]);
  }

  async doCheck() {
    this.begin();
    clear(this.head, h("p", {class: "small"}, "The program checks it…"));
    try {
      const done = await this.slot.run("check", {text: store.text});
      this.answer(done, this.version);
      if (this.version === store.version) store.mark(done.faults);
    } catch (error) {
      this.fault(error);
    }
  }

  /**
   * @param {boolean} anew
   * @param {"find" | "mend"} kind
   */
  async doFind(anew, kind = "find") {
    const isAnew = anew || store.proof === "whole";
    this.begin();
    clear(this.head, h("p", {class: "small"}, "The search begins…"));
    const seconds = Math.max(1, Math.min(MOST_SECONDS, Number(this.seconds.value) || USUAL_SECONDS));
    this.tasks.begin(seconds);
    try {
      const done = await this.slot.run(kind, {text: store.text, seconds, anew: isAnew}, (message) => {
        if (message.event !== "tasks") return this.tasks.take(message);
        clear(this.head);
        this.tasks.show(message);
      });
      this.tasks.leave();
      if (done.found === "proof") this.found(done);
      else if (done.found === "flaw") {
        knowFlaw(done, this.version);
        clear(this.head, flawShown(done, this.animate));
      } else {
        clear(this.head, badge("told", "no proof, and no counterexample"), done.told.map((line) => h("p", {}, line)));
      }
    } catch (error) {
      this.tasks.leave();
      this.fault(error);
    }
  }

  // What is refused is seen at once, as soon as the view is.
  /** @param {boolean} isShown */
  show(isShown) {
    if (!isShown || !this.bad) return;
    this.bad.scrollIntoView({block: "center"});
    this.bad = null;
  }

  /** @param {unknown} error */
  fault(error) {
    clear(this.head, endShown(error));
    const isNow = this.version === store.version;
    if (isNow && error instanceof Refused && error.faults.length) store.mark(error.faults);
  }

  /** @param {FoundProof} done */
  found(done) {
    this.answer(done, this.version, [
      h("button", {type: "button", class: "main", onclick: () => this.take(done)}, "Put the proof into the text"),
      h("p", {class: "small"}, done.told.join("; ")),
    ]);
  }

  // The found proof is of the same net, so what the program said holds of the new text too.
  /** @param {FoundProof} done */
  take(done) {
    this.replace(done.text);
    this.head.classList.remove("old");
    this.shown.classList.remove("old");
    this.version = store.version;
    this.find.blur();
    if (done.answer.good) store.know(kindOf(done.answer), done.answer.line, store.version);
    this.inText = true;
  }

  /**
   * @param {Checked} done
   * @param {number} version
   * @param {Kid[]} more
   */
  answer(done, version, more = []) {
    const {answer, explanation, bundle} = done;
    this.mend.hidden = answer.good || done.whole === false;
    this.inText = !("found" in done);
    const kind = kindOf(answer);
    store.know(kind, answer.line, version);
    const name = store.name.replace(/\.[a-z]+$/, "");
    const save = () => download(`${name}.bundle.json`, `${bundle}\n`, "application/json");
    const run = () => store.tell("journal");
    clear(
      this.head,
      badge(kind),
      h("p", {class: `line ${answer.good ? "good" : "bad"}`}, h("code", {}, answer.line)),
      h("p", {class: "small"}, saidTold(answer, done.whole !== false)),
      more,
      h(
        "div",
        {class: "row"},
        h("button", {type: "button", onclick: save}, "Download bundle.json"),
        kind === "certified" ? h("button", {type: "button", onclick: run}, "Run it, for a journal") : null,
      ),
    );
    store.layers = {net: JSON.stringify(store.net), leaves: layersOf(explanation)};
    store.tell("layers");
    const own = this.inText;
    const onLine = (/** @type {number} */ line) => {
      if (this.inText || own) store.tell("line", line);
    };
    clear(
      this.shown,
      h("p", {class: "small"}, "Below: the proof as the workbench reads it."),
      render(explanation, {onLine, onSays: (text) => store.tell("says", text)}),
    );
    this.bad = this.shown.querySelector("li.bad, tr.bad, p.refused");
    this.panel.scrollTop = 0;
    this.show(!this.panel.hidden);
  }
}
