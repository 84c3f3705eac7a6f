"""Play with 300 agents in chromium: the time between its frames, and what each takes of a processor."""
from __future__ import annotations

import time
from typing import Any

from .browsing import Page

AGENTS = 300
FASTEST = 99  # where the slider stands for a thousand meetings a second
# a crowd that never ends, and changes at one meeting of four
TEXT = "inputs x: A  y: B\nA + A -> B + B\nB + B -> C + C\nC + C -> D + D\nD + D -> A + A\nyes A B\n"
MOTION = [{"name": "prefers-reduced-motion", "value": "no-preference"}]
STILL = [{"name": "prefers-reduced-motion", "value": "reduce"}]
COUNT = """const [seconds, done] = arguments;
const seen = [];
const frame = (now) => {
  seen.push(now);
  if (now - seen[0] < 1000 * seconds) requestAnimationFrame(frame);
  else done(seen.slice(1).map((at, i) => at - seen[i]));
};
requestAnimationFrame(frame);"""
PUT = """document.querySelectorAll('#panel-play .count-of input').forEach((one) => {
  one.value = arguments[0];
  one.dispatchEvent(new Event('change'));
})"""
SPEED = "const one = document.querySelector('.speedbox input'); one.value = arguments[0]; one.dispatchEvent(new Event('input'))"
PARTS = {"script": "ScriptDuration", "style": "RecalcStyleDuration", "layout": "LayoutDuration", "all": "ThreadTime"}
WARM = 1.0  # seconds of play before it is measured


def _metrics(page: Page) -> dict[str, float]:
    found = page.browser.execute_cdp_cmd("Performance.getMetrics", {})["metrics"]
    return {one["name"]: one["value"] for one in found}


def begin(page: Page) -> None:
    """A crowd of 300, drawn on the page that is open."""
    page.browser.execute_cdp_cmd("Performance.enable", {"timeDomain": "threadTicks"})
    page.put(TEXT)
    page.sees("#panel-play .chips", "C0")
    page.js(PUT, AGENTS // 2)
    page.sees("#panel-play .chips", f"A{AGENTS // 2}B{AGENTS // 2}")


def _play(page: Page, slider: int, seconds: float) -> tuple[list[float], dict[str, float]]:
    page.js(SPEED, slider)
    page.one('[aria-label="Random meetings"]').click()
    time.sleep(WARM)
    before = _metrics(page)
    times: list[float] = page.browser.execute_async_script(COUNT, seconds)
    after = _metrics(page)
    page.one('[aria-label="Stop"]').click()
    return times, {name: 1000 * (after[key] - before[key]) / len(times) for name, key in PARTS.items()}


def measured(page: Page, slider: int, seconds: float) -> tuple[list[float], dict[str, float]]:
    """Milliseconds between frames while the crowd meets, with motion; and those of a processor for each frame, by what
    took them."""

    def shade(features: list[dict[str, Any]]) -> None:
        page.browser.execute_cdp_cmd("Emulation.setEmulatedMedia", {"features": features})

    shade(MOTION)
    try:
        return _play(page, slider, seconds)
    finally:
        shade(STILL)
