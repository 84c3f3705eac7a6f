// The menu of examples, by groups.
import {h} from "./dom.js";

const MOST_ABOUT = 90; // signs of an example
const GROUPS = {
  examples: "Examples",
  families: "Families: one text for many protocols",
  succinct: "Succinct: few states for great constants",
  found: "More, with found proofs",
};

/** @param {Example} example */
function option({name, about}) {
  return h("option", {value: name}, `${name.split("/").at(-1)} — ${about}`.slice(0, MOST_ABOUT));
}

/**
 * @param {HTMLSelectElement} menu
 * @param {Example[]} all
 */
export function offer(menu, all) {
  for (const [name, label] of Object.entries(GROUPS)) {
    menu.append(h("optgroup", {label}, all.filter((one) => one.group === name).map(option)));
  }
  const box = menu.closest("label");
  if (box) box.hidden = !all.length;
}
