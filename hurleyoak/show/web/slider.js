// A list of meetings with a slider: each crowd as bars, with the meeting and the move that led there.
import {clear, h} from "./dom.js";

const MOST_SHARE = 100; // per cent

/** @param {SliderPage} page @param {string} name @param {number} count */
function row(page, name, count) {
  const output = page.outputs[name];
  const vars = {"--share": `${(MOST_SHARE * count) / page.agents}%`};
  const bar = h("span", {class: output ? "bar yes" : "bar no", vars});
  const cells = [h("td", {}, name), h("td", {class: "count"}, count), h("td", {}, String(output))];
  return h("tr", {class: count ? "" : "none"}, cells, h("td", {class: "wide"}, bar));
}

/** @param {SliderPage["steps"][number]} step @param {number} at @param {number} count */
function told(step, at, count) {
  if (!at) return `before the first of ${count} meetings`;
  const [a, b] = step.pair;
  return `meeting ${at} of ${count}: agents ${a} and ${b}, ${step.move || "nothing changes"}`;
}

/** @param {SliderPage} page */
export function sliderOf(page) {
  const last = page.steps.length - 1;
  const line = h("p", {class: "told", role: "status"});
  const body = h("tbody");
  const slider = h("input", {type: "range", min: 0, max: last, step: 1, value: 0, "aria-label": "Meeting"});
  const show = () => {
    const at = Number(slider.value);
    const step = page.steps[at];
    clear(line, told(step, at, last));
    clear(body, page.names.map((name, i) => row(page, name, step.crowd[i])));
    slider.setAttribute("aria-valuetext", line.textContent ?? "");
  };
  const go = (/** @type {number} */ change) => () => {
    slider.value = String(Math.min(last, Math.max(0, Number(slider.value) + change)));
    show();
  };
  slider.addEventListener("input", show);
  const head = h("tr", {}, ["state", "agents", "output", ""].map((name) => h("th", {}, name)));
  const buttons = Object.entries({first: -last, back: -1, on: 1, last})
                    .map(
                      ([name, change]) => h("button", {type: "button", onclick: go(change)}, name),
                    );
  show();
  return h("div", {}, h("div", {class: "row"}, buttons), slider, line, h("table", {}, h("thead", {}, head), body));
}
