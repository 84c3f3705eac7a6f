// Elements of drawings.
import {fill} from "./dom.js";

const SVG = "http://www.w3.org/2000/svg";

/**
 * @template {keyof SVGElementTagNameMap} T
 * @param {T} tag
 * @param {Props<SVGElementTagNameMap[T]>} [props]
 * @param {...Kid} kids
 * @returns {SVGElementTagNameMap[T]}
 */
export function s(tag, props = {}, ...kids) {
  return fill(document.createElementNS(SVG, tag), props, kids);
}
