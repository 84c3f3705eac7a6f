// Wrong?: small crowds tried one after the other; one that goes wrong is played by the program, and then shown in Play.
import {Slot} from "./api.js";
import {badge} from "./badge.js";
import {clear, h} from "./dom.js";
import {flawShown, knowFlaw} from "./flaw.js";
import {assumedText} from "./names.js";
import {endShown} from "./refused.js";
import {store} from "./store.js";

const AGENTS = 8;
const SECONDS = 60;

export class Wrong {
  /** @param {HTMLElement} panel @param {{animate: (flaw: Flaw) => void}} page */
  constructor(panel, {animate}) {
    this.panel = panel;
    this.animate = animate;
    this.slot = new Slot((busy) => this.busy(busy));
    this.agents = h("input", {type: "number", min: 1, max: 40, value: AGENTS, id: "agents", inputmode: "numeric"});
    const look = {type: "number", min: 1, max: 1800, value: SECONDS, inputmode: "numeric"};
    this.seconds = h("input", {...look, id: "refute-seconds"});
    const refute = () => this.refute();
    this.go = h("button", {type: "button", class: "main", onclick: refute}, "Look for a crowd that goes wrong");
    this.stop = h("button", {type: "button", onclick: () => this.slot.stop(), hidden: true}, "Stop");
    this.progress = h("p", {class: "small", role: "status"});
    this.told = h("div", {class: "outcome", "aria-live": "polite"});
    this.empty = h("p", {class: "none"}, "Write a protocol on the left, or take an example from the menu.");
    this.about = h("p", {class: "small"});
    const small = (/** @type {string} */ word) => h("span", {class: "small"}, word);
    const agents = h("label", {}, small("up to"), this.agents, small("agents"));
    const seconds = h("label", {}, this.seconds, small("seconds"));
    const submit = (/** @type {Event} */ event) => {
      event.preventDefault();
      this.refute();
    };
    this.body = h(
      "div",
      {hidden: true},
      h("form", {class: "row", onsubmit: submit}, this.go, agents, seconds, this.stop),
      this.about,
      this.progress,
      this.told,
    );
    this.panel.append(this.empty, this.body);
    store.on("read", () => this.renew());
    store.on("text", () => this.told.childElementCount && this.told.classList.add("old"));
  }

  renew() {
    this.empty.hidden = Boolean(store.net);
    this.body.hidden = !store.net;
    if (!store.net) return;
    const {predicate} = store.net;
    const asked = `does each end with the value of ${predicate}?${assumedText(store.net)}`;
    this.about.textContent = predicate
      ? `All crowds of few agents are tried: ${asked}`
      : "The text has no predicate: a line `computes PREDICATE` says what the protocol is to compute.";
    this.go.disabled = !predicate;
  }

  /** @param {boolean} busy */
  busy(busy) {
    this.stop.hidden = !busy;
    this.go.disabled = busy;
    if (!busy) this.progress.textContent = "";
  }

  // None that goes wrong was found.
  /** @param {Untried} done */
  nothing(done) {
    if (done.untried) {
      return clear(this.told, badge("told", "nothing was tried"), h("p", {class: "summary"}, done.untried));
    }
    const [inputs, crowds] = [done.inputs.toLocaleString("en"), done.crowds.toLocaleString("en")];
    const short = done.agents < done.asked ? `; the time was up before ${done.asked} agents` : "";
    const up = done.agents ? `up to ${done.agents} agents` : "those tried";
    const tried = `${inputs} inputs with ${crowds} crowds were tried${short}.`;
    clear(
      this.told,
      badge("tried"),
      h("p", {class: "summary"}, `None of ${up} goes wrong.`),
      h("p", {class: "small"}, `${tried} Greater crowds may go wrong; a certificate speaks of all.`),
    );
  }

  async refute() {
    const version = store.version;
    clear(this.told);
    this.told.classList.remove("old");
    try {
      const agents = Number(this.agents.value) || AGENTS;
      const seconds = Number(this.seconds.value) || SECONDS;
      const done = await this.slot.run("refute", {text: store.text, agents, seconds}, (message) => {
        const [inputs, crowds] = [message.inputs.toLocaleString("en"), message.crowds.toLocaleString("en")];
        this.progress.textContent = `${message.agents} agents; ${inputs} inputs, ${crowds} crowds so far`;
      });
      if (done.found === "nothing") return this.nothing(done);
      knowFlaw(done, version);
      clear(this.told, flawShown(done, this.animate));
      if (done.meetings && version === store.version) this.animate(done);
    } catch (error) {
      clear(this.told, endShown(error));
    }
  }
}
