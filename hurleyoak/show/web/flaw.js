// A counterexample: what it is, who has played it, and the way to Play.
import {download} from "./api.js";
import {badge} from "./badge.js";
import {h} from "./dom.js";
import {store} from "./store.js";

// What is known of the text by it: whether the program itself has seen it go wrong.
/** @param {Flaw} done @param {number} version */
export function knowFlaw(done, version) {
  store.know(done.meetings && !done.endless ? "wrong" : "doubted", done.told[0], version);
}

/** @param {Flaw} done @param {(flaw: Flaw) => void} animate */
export function flawShown(done, animate) {
  const name = store.name.replace(/\.[a-z]+$/, "");
  const isPlayed = Boolean(done.meetings);
  const first = done.told[0];
  const played = done.endless ? "its way played by the program" : "a counterexample, played by the program";
  const save = () => download(`${name}.play.txt`, done.file);
  const show = h("button", {type: "button", class: "main", onclick: () => animate(done)}, "Show it in Play");
  return [
    isPlayed ? badge("played", played) : badge("told", "a counterexample, by the workbench's own word"),
    done.endless ? badge("told", "that it never ends: by the workbench's own word") : null,
    h("p", {class: "summary bad"}, first[0].toUpperCase() + first.slice(1)),
    h("pre", {}, done.told.slice(1).join("\n").trim()),
    isPlayed ? h("div", {class: "row"}, show, h("button", {type: "button", onclick: save}, "Download for pop play"))
             : null,
  ];
}
