// A text with colours and line numbers, where there is no editor.
import {h} from "./dom.js";
import {popMode} from "./mode.js";

const POINTED = 1200; // milliseconds for which a line is pointed at

// A line as the mode reads it.
class Stream {
  /** @param {string} text */
  constructor(text) {
    this.text = text;
    this.at = this.start = 0;
  }
  sol() {
    return this.at === 0;
  }
  next() {
    return this.text[this.at++];
  }
  eatSpace() {
    return this.match(/^\s+/);
  }
  skipToEnd() {
    this.at = this.text.length;
  }
  current() {
    return this.text.slice(this.start, this.at);
  }
  /** @param {string | RegExp} what */
  match(what) {
    const rest = this.text.slice(this.at);
    const found = typeof what === "string" ? (rest.startsWith(what) ? what : null) : what.exec(rest)?.[0];
    if (!found) return false;
    this.at += found.length;
    return true;
  }
}

/** @param {string} text @param {Mode} mode @param {ModeState} state */
function tokens(text, mode, state) {
  const stream = new Stream(text);
  const out = [];
  while (stream.at < text.length) {
    stream.start = stream.at;
    const kind = mode.token(stream, state);
    out.push(kind ? h("span", {class: `cm-${kind}`}, stream.current()) : stream.current());
  }
  return out;
}

export class Listing {
  /** @param {HTMLElement} place @param {string} text */
  constructor(place, text) {
    const mode = popMode();
    const state = mode.startState();
    const lines = text.replace(/\n$/, "").split("\n");
    this.lines = lines.map((line, i) => h("li", {value: i + 1}, h("code", {}, tokens(line, mode, state))));
    place.append(h("ol", {class: "listing cm-s-default", tabindex: 0, "aria-label": "The text"}, this.lines));
  }

  /** @param {number} line */
  go(line) {
    const one = this.lines[line - 1];
    if (!one) return;
    one.scrollIntoView({block: "center"});
    one.classList.add("pointed");
    setTimeout(() => one.classList.remove("pointed"), POINTED);
  }
}
