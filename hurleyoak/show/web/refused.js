// What was refused, and how it is told.
import {h} from "./dom.js";

// What was refused, in sentences; `faults` are marks at places of the text.
export class Refused extends Error {
  /**
   * @param {string[]} told
   * @param {Mark[]} faults
   */
  constructor(told, faults = [], status = 0) {
    super(told.join("\n"));
    this.told = told;
    this.faults = faults;
    this.status = status;
  }
}

// Whether it is that a job was ended from here.
export function stopped(/** @type {unknown} */ error) {
  return error instanceof Error && error.name === "AbortError";
}

/** @param {unknown} error */
export function messageOf(error) {
  return error instanceof Error ? error.message : String(error);
}

/** @param {unknown} error */
export function toldOf(error) {
  return error instanceof Refused ? error.told : [messageOf(error)];
}

// An end that was not asked for, or one that was.
/** @param {unknown} error */
export function endShown(error) {
  return stopped(error) ? h("p", {class: "small"}, "Stopped.") : h("pre", {class: "bad"}, toldOf(error).join("\n"));
}
