// Compile: a predicate becomes a net with its proof, made by the program.
import {download, Slot} from "./api.js";
import {badge, kindOf} from "./badge.js";
import {clear, h} from "./dom.js";
import {sizesTold} from "./names.js";
import {endShown} from "./refused.js";
import {store} from "./store.js";

const PREVIEW = 40; // lines
const WAYS = {
  smallest: "the net with the fewest states",
  quick: "a quick net, whatever its size",
  succinct: "a succinct net, for great constants",
  plain: "the program's own net",
  flocks: "the program's own, powers of 2 by flocks",
};
const ABOUT =
  "What the protocol is to compute. The program makes a net of it, with a proof; of great constants the workbench " +
  "does, and quick nets as well, and the program certifies them.";
const IDEAS = ["x >= y", "x - y < 3", "2x + y = 1 mod 3", "x - y < 1000000", "x > 2 and y = 0 mod 2"];

export class Compile {
  /** @param {HTMLElement} panel @param {{replace: (text: string) => void}} page */
  constructor(panel, {replace}) {
    this.panel = panel;
    this.replace = replace;
    this.slot = new Slot((busy) => (this.go.disabled = busy));
    const plain = {spellcheck: "false", autocomplete: "off", autocapitalize: "off", "aria-label": "Predicate"};
    this.field = h("input", {type: "text", class: "wide", id: "predicate", value: "x - y < 3", ...plain});
    const ways = Object.entries(WAYS).map(([value, text]) => h("option", {value}, text));
    this.way = h("select", {"aria-label": "Which net"}, ways);
    this.go = h("button", {type: "submit", class: "main"}, "Compile");
    this.told = h("div", {class: "outcome", "aria-live": "polite"});
    const submit = (/** @type {Event} */ event) => {
      event.preventDefault();
      this.compile();
    };
    this.panel.append(
      h("p", {class: "small"}, ABOUT),
      h("form", {class: "row", onsubmit: submit}, h("label", {class: "grow"}, this.field), this.go, this.way),
      h("p", {class: "ideas"}, h("span", {class: "small"}, "As "), IDEAS.map((text) => this.idea(text))),
      this.told,
    );
  }

  /** @param {string} text */
  idea(text) {
    const take = () => {
      this.field.value = text;
      this.compile();
    };
    return h("button", {type: "button", class: "plain", onclick: take}, h("code", {}, text));
  }

  async compile() {
    clear(this.told, h("p", {class: "small"}, "…"));
    try {
      const done = await this.slot.run("compile", {of: this.field.value, way: this.way.value});
      const lines = done.text.split("\n");
      const preview = lines.length > PREVIEW ? [...lines.slice(0, PREVIEW), "…"] : lines;
      const save = () => download("compiled.bundle.json", `${done.bundle}\n`, "application/json");
      clear(
        this.told,
        done.own ? badge("compiled") : badge("told", "made by the workbench"),
        badge(kindOf(done.answer), `${done.answer.line} by the program`),
        h("p", {class: "summary"}, "Read as ", h("code", {}, done.form), `: ${sizesTold(done.leaves)}.`),
        done.told.map((line) => h("p", {class: "small"}, line)),
        h(
          "div",
          {class: "row"},
          h("button", {type: "button", class: "main", onclick: () => this.take(done)}, "Put it into the editor"),
          h("button", {type: "button", onclick: save}, "Download bundle.json"),
        ),
        h("pre", {class: "preview"}, preview.join("\n")),
      );
    } catch (error) {
      clear(this.told, endShown(error));
    }
  }

  /** @param {Compiled} done */
  take(done) {
    this.replace(done.text);
    if (done.answer.good) store.know(kindOf(done.answer), done.answer.line, store.version);
  }
}
