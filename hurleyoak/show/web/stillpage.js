// A page without a server: the text, Play, Net, the certificate as it was certified, and curves that were measured.
import {badge, kindOf, setProgram} from "./badge.js";
import {Chart} from "./chart.js";
import {seriesOf} from "./curve.js";
import {h, part} from "./dom.js";
import {Listing} from "./listing.js";
import {NetTab} from "./nettab.js";
import {Play} from "./play.js";
import {layersOf, render} from "./proof.js";
import {download, given} from "./still.js";
import {store} from "./store.js";
import {NARROW, Tabs} from "./tabs.js";
import {theme} from "./theme.js";

const page = given();

/** @param {GivenCurve} one @returns {[HTMLElement, () => void]} */
function curveBox(one) {
  const chart = new Chart();
  const curve = {...one, rows: one.rows.map((row) => new Map(row))};
  const names = {xName: "meetings for each agent", xShort: "at", yName: "agents"};
  const marks = one.last === null ? [] : [{x: one.last, text: "last change"}];
  const about = "Counts over parallel time";
  const show = (/** @type {string} */ by) =>
    chart.show({series: seriesOf(curve, by, page.net), ...names, marks, about});
  const options = [h("option", {value: "state"}, "by state"), h("option", {value: "output"}, "by output")];
  const look = {"aria-label": "Counts of"};
  const choice = h("select", {...look, onchange: (event) => show(event.target.value)}, options);
  const head = [h("h3", {}, one.title), h("div", {class: "row"}, badge("measured"), choice)];
  const box = h("section", {}, head, chart.element, h("pre", {}, one.told.join("\n")));
  return [box, () => show(choice.value)];
}

/** @param {HTMLElement} panel */
function certificate(panel) {
  const {check} = page;
  const by = page.program ? [h("p", {class: "small"}, `Asked when this page was made: ${page.program}`)] : [];
  const cannot = "This page cannot check it: the program can. SHA-256 of the bundle: ";
  if (!check) return panel.append(badge("told", "not proved"), h("p", {}, "The text has no whole proof."));
  const name = page.name.replace(/\.[a-z]+$/, "");
  const file = `${name}.bundle.json`;
  const save = () => download(file, `${check.bundle}\n`, "application/json");
  panel.append(
    badge(kindOf(check), check.good ? `${check.line} by the program, when this page was made` : ""),
    h("p", {class: `line ${check.good ? "good" : "bad"}`}, h("code", {}, check.line)),
    ...by,
    h("p", {class: "small"}, cannot, h("code", {class: "hash"}, check.hash)),
    h(
      "div",
      {class: "row"},
      h("button", {type: "button", onclick: save}, "Download bundle.json"),
      h("code", {}, `pop check ${file}`),
    ),
    render(check.explanation, {
      onLine: (line) => store.tell("line", line),
      onSays: (text) => store.tell("says", text),
    }),
  );
}

function build() {
  setProgram(page.isOfSources);
  const listing = new Listing(part("editor"), page.text);
  /** @type {(() => void)[]} */
  let shown = [];
  const names = {text: "Text", play: "Play", net: "Net", proof: "Proof"};
  const all = page.curves.length ? {...names, behaviour: "Curves"} : names;
  const tabs = new Tabs(Object.entries(all), (name) => {
    net.show(name === "net");
    if (name === "behaviour") shown.forEach((show) => show());
  });
  new Play(part("panel-play"));
  const net = new NetTab(part("panel-net"));
  certificate(part("panel-proof"));
  if (page.curves.length) {
    const made = page.curves.map(curveBox);
    part("panel-behaviour").append(...made.map(([box]) => box));
    shown = made.map(([, show]) => show);
  }
  theme(part("theme"));
  store.on("line", (line) => {
    if (NARROW.matches) tabs.choose("text");
    listing.go(line);
  });
  store.on("says", (text) => {
    part("says").textContent = text;
    part("says").hidden = false;
  });
  document.addEventListener("keydown", (event) => {
    if (event.key === "Escape") part("says").hidden = true;
  });
  const {check} = page;
  part("verdict").append(check ? badge(kindOf(check), check.line) : badge("told", "not proved"));
  if (check) store.layers = {net: JSON.stringify(page.net), leaves: layersOf(check.explanation)};
  store.given(page.name, page.text, page.net, check ? "whole" : "none");
  tabs.choose("play");
  document.body.classList.add("ready");
}

build();
