// What all views share: the text, the net that was read from it, and what is known of it.
import {job} from "./api.js";
import {messageOf, stopped} from "./refused.js";

const PAUSE = 220; // milliseconds without a keystroke before the text is read

class Store extends EventTarget {
  constructor() {
    super();
    this.text = "";
    this.version = 0; // of the text
    // of the last text that could be read
    /** @type {Net | null} */
    this.net = null;
    this.netVersion = -1;
    /** @type {Mark[]} */
    this.faults = [];
    // marks by a check: refused nodes, open parts
    /** @type {Mark[]} */
    this.extra = [];
    /** @type {ProofState} */
    this.proof = "none";
    this.isJson = false;
    // of a family, their values
    /** @type {string[]} */
    this.members = [];
    // what the program said, and of which text
    /** @type {Known | null} */
    this.known = null;
    // of the last proof that was shown, which moves each layer has
    /** @type {KnownLayers | null} */
    this.layers = null;
    this.name = "protocol.pop";
    this.timer = 0;
    /** @type {AbortController | null} */
    this.control = null;
  }

  /** @template {keyof Told} N @param {N} name @param {Told[N]} [detail] */
  tell(name, detail) {
    this.dispatchEvent(new CustomEvent(name, {detail}));
  }

  /** @template {keyof Told} N @param {N} name @param {(detail: Told[N]) => void} call */
  on(name, call) {
    this.addEventListener(name, (event) => call(/** @type {CustomEvent<Told[N]>} */ (event).detail));
  }

  // The text was changed, in the editor or from elsewhere.
  /** @param {string} text */
  setText(text, at = PAUSE) {
    if (text === this.text && this.version) return;
    this.text = text;
    this.version++;
    this.extra = [];
    this.tell("text");
    clearTimeout(this.timer);
    this.timer = setTimeout(() => this.read(), at);
  }

  // A text whose net is known already.
  /** @param {string} name @param {string} text @param {Net} net @param {ProofState} proof */
  given(name, text, net, proof) {
    Object.assign(this, {name, text, net, proof, version: 1, netVersion: 1});
    this.tell("text");
    this.tell("net");
    this.tell("read");
  }

  async read() {
    if (this.control) this.control.abort();
    const control = (this.control = new AbortController());
    const version = this.version;
    if (!this.text.trim()) {
      this.faults = [];
      this.net = null;
      this.tell("read");
      return;
    }
    try {
      const found = await job("read", {text: this.text}, {signal: control.signal});
      if (version !== this.version) return;
      this.faults = found.faults;
      if (found.net) {
        const before = JSON.stringify(this.net);
        this.net = found.net;
        this.netVersion = version;
        this.proof = found.proof;
        this.isJson = found.json;
        this.members = found.members;
        if (JSON.stringify(found.net) !== before) this.tell("net");
      }
      this.tell("read");
    } catch (error) {
      if (stopped(error)) return;
      this.faults = [{kind: "fault", told: messageOf(error), line: 0, column: 0}];
      this.tell("read");
    }
  }

  // Whether the text as it stands could be read.
  get isRead() {
    return this.net !== null && this.netVersion === this.version;
  }

  // What is known of the text that a job was given.
  /** @param {KnownKind} kind @param {string} line @param {number} version */
  know(kind, line, version) {
    this.known = {kind, line, version};
    this.tell("known");
  }

  /** @param {Mark[]} marks */
  mark(marks) {
    this.extra = marks;
    this.tell("read");
  }
}

export const store = new Store();
