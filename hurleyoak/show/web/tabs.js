// Views side by side, one shown at a time; on a narrow page the text is one of them.
import {h, part} from "./dom.js";
import {keep} from "./theme.js";

export const NARROW = matchMedia("(max-width: 860px)");

export class Tabs {
  // `views` are names with titles, `text` first; `chosen(name)` is called for the one that is shown.
  /** @param {string[][]} views @param {(name: string) => void} chosen */
  constructor(views, chosen) {
    this.views = views.map(([name]) => name);
    this.chosen = chosen;
    this.view = this.views[1];
    for (const [name, text] of views) this.add(name, text);
    part("tabs").addEventListener("keydown", (event) => this.key(event));
    NARROW.addEventListener("change", () => this.choose(this.view));
  }

  /** @param {string} name @param {string} text */
  add(name, text) {
    const own = {role: "tab", id: `tab-${name}`, "aria-controls": name === "text" ? "left" : `panel-${name}`};
    const rest = {"aria-selected": "false", tabindex: -1, data: {view: name}};
    const onclick = () => this.choose(name);
    part("tabs").append(h("button", {type: "button", ...own, ...rest, onclick}, text));
    if (name === "text") return;
    const panel = {role: "tabpanel", id: `panel-${name}`, "aria-labelledby": `tab-${name}`, tabindex: -1};
    part("panels").append(h("div", {...panel, class: `panel ${name}`, hidden: true}));
  }

  /** @param {KeyboardEvent} event */
  key(event) {
    const shown = this.views.filter((name) => name !== "text" || NARROW.matches);
    const to = {ArrowRight: 1, ArrowLeft: -1}[event.key];
    const at = shown.indexOf(this.view);
    const next = to ? shown[(at + to + shown.length) % shown.length] : {Home: shown[0], End: shown.at(-1)}[event.key];
    if (!next) return;
    event.preventDefault();
    this.choose(next);
    part(`tab-${next}`).focus();
  }

  /** @param {string} asked */
  choose(asked) {
    const name = !this.views.includes(asked) || (asked === "text" && !NARROW.matches) ? this.views[1] : asked;
    this.view = name;
    document.body.dataset.view = name;
    for (const one of this.views) {
      const tab = part(`tab-${one}`);
      tab.setAttribute("aria-selected", String(one === name));
      tab.tabIndex = one === name ? 0 : -1;
      if (one !== "text") part(`panel-${one}`).hidden = one !== name;
    }
    part(`tab-${name}`).scrollIntoView({block: "nearest", inline: "nearest"});
    if (name !== "text") keep("pop-view", name);
    this.chosen(name);
  }
}
