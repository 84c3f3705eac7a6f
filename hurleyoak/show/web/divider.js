// The width of the text: a divider that is drawn, or moved by keys.
import {part} from "./dom.js";

const [LEAST, USUAL, MOST] = [20, 40, 75]; // per cent
const STEP = 2;
const KEPT = "pop-left";

// `moved()` is told of each change.
/** @param {() => void} moved */
export function divider(moved) {
  const bar = part("divider");
  const set = (/** @type {number} */ percent) => {
    const now = Math.max(LEAST, Math.min(MOST, percent));
    part("both").style.setProperty("--left", `${now}%`);
    bar.setAttribute("aria-valuenow", String(Math.round(now)));
    localStorage.setItem(KEPT, String(now));
    moved();
  };
  set(Number(localStorage.getItem(KEPT)) || USUAL);
  bar.addEventListener("pointerdown", (event) => {
    event.preventDefault();
    bar.setPointerCapture(event.pointerId);
    bar.onpointermove = (move) => set((move.clientX / innerWidth) * 100);
  });
  bar.addEventListener("pointerup", () => (bar.onpointermove = null));
  bar.addEventListener("keydown", (event) => {
    const now = Number(bar.getAttribute("aria-valuenow"));
    if (event.key === "ArrowLeft") set(now - STEP);
    if (event.key === "ArrowRight") set(now + STEP);
  });
}
