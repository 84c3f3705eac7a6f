// Net: states and arrows, with the crowd of Play in it, the last move lit, and the proof's layers.
import {Slot} from "./api.js";
import {clear, h} from "./dom.js";
import {NetPicture} from "./netpicture.js";
import {stopped, toldOf} from "./refused.js";
import {store} from "./store.js";

const ABOUT =
  "Circles say true, squares false. An arrow goes from what an agent is to what it becomes, and says whom it meets " +
  "then. Numbers are the crowd of Play.";

export class NetTab {
  /** @param {HTMLElement} panel */
  constructor(panel) {
    this.panel = panel;
    this.slot = new Slot();
    this.picture = new NetPicture("own");
    this.isShown = false;
    this.drawnFor = ""; // the net that is drawn
    /** @type {CrowdTold | null} */
    this.last = null;
    this.empty = h("p", {class: "none"}, "Write a protocol on the left, or take an example from the menu.");
    this.about = h("p", {class: "small", hidden: true}, ABOUT);
    this.withLayers = h("input", {type: "checkbox", onchange: () => this.layers()});
    this.legend = h("span", {class: "legend"});
    const label = h("label", {}, this.withLayers, "the proof's layers");
    this.layerBox = h("p", {class: "small", hidden: true}, label, this.legend);
    this.fault = h("pre", {class: "bad", hidden: true});
    this.panel.append(this.empty, this.about, this.layerBox, this.fault, this.picture.element);
    store.on("net", () => this.renew());
    store.on("crowd", (detail) => this.crowd(detail));
    store.on("layers", () => this.layers());
  }

  /** @param {boolean} isShown */
  show(isShown) {
    this.isShown = isShown;
    if (!isShown) return;
    this.renew();
    if (this.last) this.crowd(this.last);
  }

  async renew() {
    const {net} = store;
    this.empty.hidden = Boolean(net);
    this.about.hidden = !net;
    if (!net) return this.picture.wipe();
    const key = JSON.stringify(net);
    if (!this.isShown || this.drawnFor === key) return;
    try {
      const done = await this.slot.run("net", {text: store.text});
      this.drawnFor = key;
      this.fault.hidden = true;
      this.picture.draw(net, done);
      if (this.last) this.crowd(this.last);
      this.layers();
    } catch (error) {
      if (stopped(error)) return;
      this.picture.wipe();
      this.fault.hidden = false;
      this.fault.textContent = toldOf(error).join("\n");
    }
  }

  // The crowd of Play: how many agents of each state, and the arrow that was taken last.
  /** @param {CrowdTold} detail */
  crowd(detail) {
    this.last = detail;
    if (!this.isShown || !this.picture.fits(detail.net)) return;
    detail.net.leaves.forEach((leaf, i) => {
      const sums = leaf.states.map(() => 0);
      for (const [kind, k] of detail.tally) sums[kind.word[i]] += k;
      this.picture.count(i, sums);
      const {last} = detail;
      const taken = last ? last.before.map((kind, at) => [kind.word[i], last.after[at].word[i]]) : [];
      this.picture.lit(i, taken.filter(([p, r]) => p !== r));
    });
  }

  layers() {
    const {layers} = store;
    const isKnown = layers !== null && layers.net === this.drawnFor && this.picture.hasArrows;
    this.layerBox.hidden = !isKnown;
    if (!isKnown) return;
    const isShown = this.withLayers.checked;
    this.picture.layers(layers.leaves, isShown);
    clear(this.legend, isShown ? this.picture.legend(layers.leaves) : null);
  }
}
