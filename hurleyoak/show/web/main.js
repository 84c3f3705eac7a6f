// The page: the text on the left, the views on the right, and what is known of the text above.
import {download, job, post} from "./api.js";
import {setProgram} from "./badge.js";
import {Behaviour} from "./behaviour.js";
import {Compile} from "./compile.js";
import {divider} from "./divider.js";
import {clear, h, part} from "./dom.js";
import {Editor} from "./editor.js";
import {Join} from "./join.js";
import {offer} from "./menu.js";
import {NetTab} from "./nettab.js";
import {Play} from "./play.js";
import {Proofs} from "./proofs.js";
import {messageOf, toldOf} from "./refused.js";
import {store} from "./store.js";
import {NARROW, Tabs} from "./tabs.js";
import {kept, theme} from "./theme.js";
import {toast} from "./toast.js";
import {Tour} from "./tour.js";
import {showVerdict} from "./verdict.js";
import {Wrong} from "./wrong.js";

const JOURNAL = /^\s*\{[^\n]*\n *crowd[^\n]*\n(?:run|watch) workers /;
const JSON_TEXT = /^\s*[{[]/;
const MOST_BYTES = 4 << 20;
// What an own protocol begins with: each line says what it is for.
const NEW = `# Agents are in states; two that meet may change theirs.
inputs    x: A   y: B      # each x starts in A, each y in B
A + B -> A + A             # what an A and a B become when they meet
yes       A                # states that say true; the others say false
computes  x >= 1           # what all agents are to say in the end
`;
const VIEWS = {
  text: "Text",
  play: "Play",
  behaviour: "Behaviour",
  proof: "Proof",
  wrong: "Wrong?",
  net: "Net",
  compile: "Compile",
  join: "Join",
};
const SAYS_WHO = "The page and the workbench decide nothing: what is certified, the program has certified.";

const editor = new Editor(part("editor"), part("faults"));
const picked = part("picked", HTMLInputElement);
const examples = part("examples", HTMLSelectElement);
// the file that the server was started with
/** @type {OwnFile | null} */
let file = null;
let saved = ""; // the text as it was read or saved
const tabs = new Tabs(Object.entries(VIEWS), (name) => {
  net.show(name === "net");
  join.show(name === "join");
  proof.show(name === "proof");
  if (name === "text") editor.code.refresh();
});
const play = new Play(part("panel-play"));
const behaviour = new Behaviour(part("panel-behaviour"));
const proof = new Proofs(part("panel-proof"), {animate, replace});
new Wrong(part("panel-wrong"), {animate});
const net = new NetTab(part("panel-net"));
new Compile(part("panel-compile"), {replace});
const join = new Join(part("panel-join"), {replace});
const tour = new Tour(part("tour"), {begin: tourText, choose, own: begin});

/** @param {string} name */
function choose(name) {
  tabs.choose(name);
}

/** @param {Flaw} flaw */
function animate(flaw) {
  choose("play");
  play.animate(flaw);
}

// ---- texts in and out

/** @param {string} text */
function replace(text) {
  editor.replace(text);
}

/**
 * @param {string} name
 * @param {string} text
 */
function put(name, text) {
  store.name = name;
  saved = text;
  editor.set(text);
  store.known = null;
  store.tell("known");
  store.setText(text, 0);
  showFile();
}

function showFile() {
  const changed = store.text !== saved;
  const mark = h("span", {class: "changed", title: "changed", "aria-label": "changed"}, " •");
  clear(part("file"), store.name, changed ? mark : null);
  const isOwn = file && store.name === file.name;
  part("save").textContent = isOwn ? "Save" : "Download";
  part("save").title = isOwn ? `Writes ${file?.path} (Ctrl-S)` : "Puts the text into the browser's downloads (Ctrl-S)";
  document.title = `${changed ? "• " : ""}${store.name} – pop`;
}

async function save() {
  const text = store.text;
  if (!file || store.name !== file.name) {
    download(store.isJson ? store.name.replace(/\.pop$/, ".json") : store.name, text);
    saved = text;
    return showFile();
  }
  try {
    file.mark = (await post("/save", {text, seen: file.mark})).mark;
    saved = text;
    showFile();
    toast(`${file.name} is saved`);
  } catch (error) {
    toast(messageOf(error), true);
  }
}

// JSON is shown by names, which is how a protocol is written here.
/**
 * @param {string} name
 * @param {string} text
 */
async function take(name, text) {
  if (JOURNAL.test(text)) return takeJournal(name, text);
  if (JSON_TEXT.test(text)) {
    try {
      const found = await job("text", {text});
      return put(name.replace(/\.json$/, "") + ".pop", found.text);
    } catch (error) {
      toast(messageOf(error), true);
    }
  }
  put(name, text);
}

// A journal is watched in Play, with its protocol in the editor.
/**
 * @param {string} name
 * @param {string} text
 */
async function takeJournal(name, text) {
  try {
    const done = await job("journal", {text});
    put(name.replace(/\.[a-z]+$/, "") + ".pop", done.text);
    const told = `The program replays it: ${done.replay}.`;
    const wait = () => {
      if (!store.isRead || store.text !== done.text) return;
      store.removeEventListener("read", wait);
      choose("play");
      play.watch({...done, title: "A journal. ", told, by: "run", words: "replayed by the program"});
    };
    store.addEventListener("read", wait);
  } catch (error) {
    toast(messageOf(error), true);
  }
}

function mayLeave() {
  return store.text === saved || !store.text.trim() || confirm("The text was changed and isn't saved. Leave it?");
}

function begin() {
  if (!mayLeave()) return;
  put("protocol.pop", NEW);
  choose(NARROW.matches ? "text" : "play");
  editor.code.focus();
}

// The tour's protocol: majority before anything is proved.
async function tourText() {
  const {text} = await post("/example", {name: "majority"});
  put("majority.pop", `${text.split("\nlayer")[0].trimEnd()}\n`);
}

// ---- what happens

function listen() {
  const verdict = () => showVerdict(part("verdict"), choose);
  store.on("text", () => {
    document.body.dataset.version = String(store.version);
    showFile();
    verdict();
    sessionStorage.setItem("pop-text", JSON.stringify([store.name, store.text, saved]));
  });
  store.on("net", verdict);
  store.on("read", () => {
    verdict();
    document.body.dataset.read = String(store.version);
  });
  store.on("known", verdict);
  store.on("line", (line) => {
    if (NARROW.matches) choose("text");
    editor.go(line, 1, NARROW.matches);
  });
  store.on("says", (text) => {
    part("says").textContent = text;
    part("says").hidden = false;
  });
  store.on("watch", (list) => {
    choose("play");
    play.watch(list);
  });
  store.on("journal", () => {
    choose("behaviour");
    behaviour.run();
  });
  document.addEventListener("keydown", (event) => {
    if (event.key === "Escape") part("says").hidden = true;
    if ((event.ctrlKey || event.metaKey) && event.key === "s") {
      event.preventDefault();
      save();
    }
  });
  part("save").addEventListener("click", save);
  part("new").addEventListener("click", begin);
  part("help").addEventListener("click", () => mayLeave() && tour.start());
  part("open").addEventListener("click", () => mayLeave() && picked.click());
  picked.addEventListener("change", async () => {
    const one = picked.files?.[0];
    picked.value = "";
    if (!one) return;
    if (one.size > MOST_BYTES) return toast("the file has over 4 MiB, which is too much for the page", true);
    take(one.name, await one.text());
  });
  examples.addEventListener("change", async () => {
    const name = examples.value;
    examples.value = "";
    if (!name || !mayLeave()) return;
    const found = await post("/example", {name});
    put(found.name, found.text);
  });
  addEventListener("beforeunload", (event) => {
    if (store.text !== saved && file && store.name === file.name) event.preventDefault();
  });
}

// The text that was given, or that the browser kept for this tab.
/** @param {Posts["/start"]} found */
async function firstText(found) {
  /** @type {[name: string, text: string, saved: string] | null} */
  const before = JSON.parse(sessionStorage.getItem("pop-text") || "null");
  if (found.file) {
    const own = (file = found.file);
    const [name, text, was] = before ?? ["", "", ""];
    const isKept = name === own.name && text.trim() && was === own.text && text !== own.text;
    if (JSON_TEXT.test(own.text)) await take(own.name, own.text);
    else put(own.name, own.text);
    if (isKept) replace(text);
  } else if (before && before[1].trim()) {
    put(before[0], before[1]);
  } else if (found.examples.some((one) => one.name === "majority")) {
    if (Tour.isNew()) await tour.start();
    else put("majority.pop", (await post("/example", {name: "majority"})).text);
  }
}

async function start() {
  choose(kept("pop-view") || "play");
  theme(part("theme"));
  listen();
  divider(() => editor.code.refresh());
  let found;
  try {
    found = await post("/start");
  } catch (error) {
    document.body.append(h("div", {class: "cover", role: "alert"}, toldOf(error).map((line) => h("p", {}, line))));
    return;
  }
  const isOfSources = found.program.includes("is that of the sources");
  setProgram(isOfSources);
  clear(part("foot"), h("span", {class: isOfSources ? "" : "warning"}, found.program), h("span", {}, SAYS_WHO));
  offer(examples, found.examples);
  join.offer(found.examples);
  if (found.told) toast(found.told, true);
  await firstText(found);
  document.body.classList.add("ready");
}

start();
