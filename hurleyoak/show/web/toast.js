// A word to who is at the page, which goes away by itself.
import {h} from "./dom.js";

const SHOWN = 2500; // milliseconds
const SHOWN_BAD = 8000;

/** @param {string} text */
export function toast(text, bad = false) {
  const box = h("div", {class: `toast${bad ? " bad" : ""}`, role: "alert"}, text);
  document.body.append(box);
  setTimeout(() => box.remove(), bad ? SHOWN_BAD : SHOWN);
}
