// What is known of the text, in the head of the page.
import {badge, isProved} from "./badge.js";
import {clear, h} from "./dom.js";
import {store} from "./store.js";

/**
 * @param {Known} known
 * @returns {[kind: BadgeKind, words: string]}
 */
function badgeOf({kind, line, version}) {
  if (version !== store.version) {
    return ["told", isProved(kind) ? `an earlier text was ${line}` : "nothing proved of this text"];
  }
  if (kind === "wrong") return ["rejected", "goes wrong: played by the program"];
  if (kind === "doubted") return ["told", "goes wrong, by the workbench's word"];
  return [kind, kind === "rejected" ? "proof rejected by the program" : `${line} by the program`];
}

/**
 * @param {HTMLElement} place
 * @param {(view: string) => void} choose
 */
export function showVerdict(place, choose) {
  const {known, net} = store;
  if (!known) return clear(place, net ? badge("told", "nothing proved yet") : null);
  const view = known.kind === "wrong" || known.kind === "doubted" ? "wrong" : "proof";
  const look = {type: "button", class: "plain", title: known.line};
  clear(place, h("button", {...look, onclick: () => choose(view)}, badge(...badgeOf(known))));
}
