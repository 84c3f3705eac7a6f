// A first minute: what a protocol is, two meetings, a proof that is found, and what certified means.
import {isProved} from "./badge.js";
import {clear, h} from "./dom.js";
import {store} from "./store.js";

const DONE = "pop-tour";
const MEETINGS = 2;

/** @type {[view: string, words: Kid][]} */
const STEPS = [
  [
    "text",
    [
      ["Agents are in states. ", h("code", {}, "A + B -> a + b"), " says what two of them become when they meet; "],
      [h("code", {}, "yes"), " lists the states that say true. "],
      "This one is to tell whether x has more agents than y.",
    ],
  ],
  [
    "play",
    [
      ["In Play, choose an ", h("b", {}, "A"), " and then a ", h("b", {}, "B"), ": they meet. Do that twice. "],
      "The program plays the same, and the page says so.",
    ],
  ],
  [
    "proof",
    ["Is it right for crowds of all sizes, from two agents on? In Proof, press ", h("b", {}, "Find a proof"), "."],
  ],
  [
    "proof",
    [
      [h("b", {}, "Certified"), ": the proved program has checked the proof, "],
      "so every fair run of every crowd comes to the right answer. ",
      "Change a line, and the claim is one of an earlier text. ",
      ["Now write your own: change the lines of a short one, and press ", h("b", {}, "Find a proof"), " again."],
    ],
  ],
];

/** @typedef {{begin: () => Promise<void>, choose: (view: string) => void, own: () => void}} TourCalls */

export class Tour {
  // `begin()` puts the tour's protocol into the editor, `own()` a short one to be changed; `choose(view)` shows a view.
  /** @param {HTMLElement} place @param {TourCalls} page */
  constructor(place, {begin, choose, own}) {
    this.place = place;
    this.begin = begin;
    this.choose = choose;
    this.own = own;
    this.at = -1;
    store.on("crowd", ({meetings}) => {
      if (this.at === 1 && meetings >= MEETINGS) this.show(2);
    });
    store.on("known", () => {
      if (this.at >= 0 && isProved(store.known?.kind)) this.show(3);
    });
  }

  static isNew() {
    try {
      return !localStorage.getItem(DONE);
    } catch {
      return false;
    }
  }

  async start() {
    await this.begin();
    this.show(0);
  }

  /** @param {number} at */
  show(at) {
    this.at = at;
    const [view, words] = STEPS[at];
    this.place.hidden = false;
    this.choose(view);
    const last = at === STEPS.length - 1;
    const on = () => {
      if (!last) return this.show(at + 1);
      this.leave();
      this.own();
    };
    const next = h("button", {type: "button", class: "main", onclick: on}, last ? "Write your own" : "Next");
    clear(
      this.place,
      h("span", {class: "small"}, `${at + 1} of ${STEPS.length}`),
      h("p", {role: "status"}, words),
      at ? h("button", {type: "button", onclick: () => this.show(at - 1)}, "Back") : null,
      next,
      h("button", {type: "button", class: "plain", onclick: () => this.leave()}, last ? "Done" : "Leave the tour"),
    );
  }

  leave() {
    this.at = -1;
    this.place.hidden = true;
    try {
      localStorage.setItem(DONE, "1");
    } catch {
      // (then it is offered again)
    }
  }
}
