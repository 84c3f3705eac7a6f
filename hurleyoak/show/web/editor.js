// The editor: CodeMirror with the colours of `.pop` files, and marks where something is wrong.
import {clear, h} from "./dom.js";
import {popMode} from "./mode.js";
import {meaningOf, wordAt, wordsFor} from "./names.js";
import {store} from "./store.js";

const CodeMirror = window.CodeMirror;
CodeMirror.defineMode("pop", popMode);

const REST = 350; // milliseconds of rest of the pointer before a name is told
/** @type {Record<FaultKind, string>} */
const SIGNS = {
  fault: "●",
  refused: "✕",
  note: "●",
  warning: "▲"
};
/** @type {Record<FaultKind, number>} */
const RANK = {
  fault: 0,
  refused: 1,
  note: 2,
  warning: 3
};

export class Editor {
  /** @param {HTMLElement} place @param {HTMLElement} list */
  constructor(place, list) {
    this.list = list;
    this.code = CodeMirror(place, {
      mode: "pop",
      lineNumbers: true,
      gutters: ["CodeMirror-linenumbers", "marks"],
      matchBrackets: true,
      autoCloseBrackets: true,
      styleActiveLine: true,
      indentUnit: 2,
      tabSize: 2,
      lineWrapping: true,
      viewportMargin: 40,
      // (Tab leaves the editor, as in any field; lines are indented by Ctrl-])
      extraKeys: {
        Tab: false,
        "Shift-Tab": false,
        "Ctrl-/": "toggleComment",
        "Cmd-/": "toggleComment",
        "Ctrl-Space": () => this.complete(),
        F1: () => this.tell(),
      },
    });
    const field = this.code.getInputField();
    field.setAttribute("aria-label", "Protocol");
    /** @type {TextMark[]} */
    this.marks = [];
    /** @type {[LineHandle, FaultKind][]} */
    this.lines = [];
    /** @type {Tally | null} */
    this.tally = null;
    this.resting = 0;
    // (what is wrapped stands deeper than where its line begins)
    this.code.on("renderLine", (_, line, element) => {
      const indent = Math.min(24, line.text.search(/[^ ]|$/)) + 4;
      element.style.setProperty("padding-left", `calc(4px + ${indent}ch)`);
      element.style.setProperty("text-indent", `-${indent}ch`);
    });
    this.code.on("change", () => store.setText(this.code.getValue()));
    store.on("read", () => this.show());
    store.on("crowd", ({tally}) => (this.tally = tally));
    this.tip = h("div", {class: "meaning", role: "tooltip", hidden: true});
    document.body.append(this.tip);
    const wrapper = this.code.getWrapperElement();
    wrapper.addEventListener("mousemove", (event) => this.point(event));
    wrapper.addEventListener("mouseleave", () => this.point(null));
  }

  // What the name below the pointer is, once it rests.
  /** @param {MouseEvent | null} event */
  point(event) {
    clearTimeout(this.resting);
    this.tip.hidden = true;
    if (!event || event.buttons) return;
    const {clientX: left, clientY: top} = event;
    this.resting = setTimeout(() => {
      const at = this.code.coordsChar({left, top}, "window");
      const told = this.meaning(at);
      if (!told || at.outside) return;
      this.tip.textContent = told;
      this.tip.style.setProperty("left", `${Math.min(left + 8, innerWidth - 330)}px`);
      this.tip.style.setProperty("top", `${top + 18}px`);
      this.tip.hidden = false;
    }, REST);
  }

  /** @param {Spot} at */
  meaning({line, ch}) {
    const text = this.code.getLine(line) || "";
    const found = wordAt(text, ch);
    return found ? meaningOf(found.word, text, this.tally) : "";
  }

  // The same at the cursor, for who has no pointer.
  tell() {
    store.tell("says", this.meaning(this.code.getCursor()) || "this is no name that means something here");
  }

  // The words that may come next.
  complete() {
    this.code.showHint({
      completeSingle: false,
      hint: (code) => {
        const at = code.getCursor();
        const {typed, words} = wordsFor(code.getLine(at.line), at.ch);
        return {list: words, from: {line: at.line, ch: at.ch - typed.length}, to: at};
      },
    });
  }

  /** @param {string} text */
  set(text) {
    this.code.setValue(text);
    this.code.clearHistory();
    this.code.scrollTo(0, 0);
  }

  // Puts a text in place of what is there, so that it can be taken back by Ctrl-Z.
  /** @param {string} text */
  replace(text) {
    this.code.operation(() => {
      this.code.replaceRange(text, {line: 0, ch: 0}, {line: this.code.lineCount(), ch: 0});
      this.code.setCursor({line: 0, ch: 0});
    });
    this.code.scrollTo(0, 0);
  }

  /** @param {number} line */
  go(line, column = 1, focus = true) {
    const at = {line: line - 1, ch: Math.max(0, column - 1)};
    this.code.setCursor(at);
    this.code.scrollIntoView(at, this.code.getScrollInfo().clientHeight / 3);
    const handle = this.code.addLineClass(line - 1, "wrap", "pointed");
    setTimeout(() => this.code.removeLineClass(handle, "wrap", "pointed"), 1200);
    if (focus) this.code.focus();
  }

  // Puts what a predicate is in the grammar's form in its place.
  /**
   * @param {number} line
   * @param {{old: string, new: string}} fix
   */
  mend(line, fix) {
    const from = this.code.getLine(line - 1).lastIndexOf(fix.old);
    const [begin, end] = [from, from + fix.old.length].map((ch) => ({line: line - 1, ch}));
    if (from >= 0) this.code.replaceRange(fix.new, begin, end);
    this.code.focus();
  }

  show() {
    const all = [...store.faults, ...store.extra];
    this.code.operation(() => this.draw(all));
    const sorted = [...all].sort((a, b) => RANK[a.kind] - RANK[b.kind] || a.line - b.line);
    const rows = [...sorted.map((one) => this.row(one)), ...all.flatMap((one) => this.fixRow(one))];
    clear(this.list, rows);
    this.list.hidden = !rows.length;
  }

  // The marks in the text and beside it.
  /** @param {Mark[]} all */
  draw(all) {
    this.marks.forEach((mark) => mark.clear());
    this.lines.forEach(([handle, kind]) => this.code.removeLineClass(handle, "wrap", `line-${kind}`));
    this.marks = [];
    this.lines = [];
    this.code.clearGutter("marks");
    /** @type {Map<number, Mark[]>} */
    const byLine = new Map();
    for (const one of all)
      if (one.line) byLine.set(one.line, [...(byLine.get(one.line) || []), one]);
    for (const [line, marks] of byLine) {
      if (line > this.code.lineCount()) continue;
      marks.sort((a, b) => RANK[a.kind] - RANK[b.kind]);
      const {kind} = marks[0];
      const told = marks.map((mark) => mark.told).join("\n");
      const look = {class: `sign ${kind}`, title: told, role: "img", "aria-label": told};
      this.code.setGutterMarker(line - 1, "marks", h("span", look, SIGNS[kind]));
      this.lines.push([this.code.addLineClass(line - 1, "wrap", `line-${kind}`), kind]);
      for (const one of marks)
        if (one.column) this.underline(line - 1, one);
    }
  }

  // The word at which something is wrong.
  /**
   * @param {number} line
   * @param {Mark} mark
   */
  underline(line, {column, kind, told}) {
    const text = this.code.getLine(line);
    const from = Math.min(column - 1, Math.max(0, text.length - 1));
    const word = /^(?:[A-Za-z0-9_'.^~@$%]+|->|.)/.exec(text.slice(from));
    const to = Math.max(from + 1, from + (word ? word[0].length : 1));
    const look = {className: `mark-${kind}`, title: told};
    this.marks.push(this.code.markText({line, ch: from}, {line, ch: to}, look));
  }

  // What is wrong, below the text.
  /** @param {Mark} mark */
  row({kind, line, column, told}) {
    const go = () => {
      if (line) this.go(line, column || 1);
    };
    const sign = h("span", {class: `sign ${kind}`, "aria-hidden": "true"}, SIGNS[kind]);
    const words = [line ? h("b", {}, `line ${line}`) : null, h("span", {}, told)];
    return h("button", {type: "button", class: `fault ${kind}`, onclick: go}, sign, words);
  }

  /** @param {Mark} mark */
  fixRow({line, fix}) {
    if (!fix) return [];
    const mend = () => this.mend(line, fix);
    return [h("button", {type: "button", class: "fix", onclick: mend}, "Write it as ", h("code", {}, fix.new))];
  }
}
