// Elements made without any text being read as HTML.

/** @typedef {Attribute | EventListener | Record<string, string | number>} Value */
/** @typedef {Exclude<Kid, Kid[]>} Flat */

/** @param {Kid[]} kids */
function nodes(kids) {
  /** @type {unknown[]} */
  const all = kids;
  const flat = /** @type {Flat[]} */ (all.flat(Infinity));
  const shown = flat.filter((kid) => kid !== null && kid !== undefined && kid !== false);
  return shown.map((kid) => (kid instanceof Node ? kid : String(kid)));
}

/**
 * @param {HTMLElement | SVGElement} element
 * @param {object} vars
 */
function paint(element, vars) {
  for (const [key, one] of Object.entries(vars)) element.style.setProperty(key, String(one));
}

/**
 * @template {HTMLElement | SVGElement} E
 * @param {E} element
 * @param {object} props
 * @param {Kid[]} kids
 */
export function fill(element, props, kids) {
  for (const [name, value] of /** @type {[string, Value][]} */ (Object.entries(props))) {
    if (value === undefined || value === null || value === false) continue;
    if (typeof value === "function") element.addEventListener(name.slice(2), value);
    else if (name === "vars") paint(element, /** @type {object} */ (value));
    else if (name === "data") Object.assign(element.dataset, value);
    else if (name === "value" || name === "checked") Object.assign(element, {[name]: value});
    else element.setAttribute(name, value === true ? "" : String(value));
  }
  element.append(...nodes(kids));
  return element;
}

/**
 * @template {keyof HTMLElementTagNameMap} T
 * @param {T} tag
 * @param {Props<HTMLElementTagNameMap[T]>} [props]
 * @param {...Kid} kids
 * @returns {HTMLElementTagNameMap[T]}
 */
export function h(tag, props = {}, ...kids) {
  return fill(document.createElement(tag), props, kids);
}

/**
 * @param {Element} element
 * @param {...Kid} kids
 */
export function clear(element, ...kids) {
  element.replaceChildren(...nodes(kids));
}

/**
 * The page's own element of this name, which is of the given kind.
 * @template {HTMLElement} [E=HTMLElement]
 * @param {string} id
 * @param {new () => E} [kind]
 */
export function part(id, kind) {
  const found = document.getElementById(id);
  if (!(found instanceof (kind ?? HTMLElement))) throw new Error(`the page lacks ${id}`);
  return /** @type {E} */ (found);
}

/**
 * What is in an element, which is known to be there.
 * @param {Element} element
 * @param {string} selector
 */
export function inside(element, selector) {
  const found = element.querySelector(selector);
  if (!found) throw new Error(`the page lacks ${selector}`);
  return found;
}
