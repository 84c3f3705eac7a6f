#!/usr/bin/python3
"""Frames a second of Play with 300 agents in chromium, and the milliseconds of a processor that the page takes for
each frame.

Run from anywhere: /usr/bin/python3 bench/frames.py [--short] [--write]. With --write the table goes into
docs/develop/performance.md. Frames are counted by requestAnimationFrame. Processor time is that of the page's main
thread, by chromium's own figures. The browser has no window and draws by software.
"""

from __future__ import annotations

import sys
from pathlib import Path
from statistics import median

TOP = Path(__file__).resolve().parents[1]
sys.path.insert(0, str(TOP))

from common import IS_SHORT, WORDS, write_between  # noqa: E402
from tests.workbench.browsing import Page  # noqa: E402
from tests.workbench.frames import FASTEST, begin, measured  # noqa: E402
from tests.workbench.serving import Server  # noqa: E402

SECONDS = 2 if IS_SHORT else 10
ANSWER = 60 + 20 * SECONDS  # seconds to wait for the browser, on a busy machine
SPEEDS = {10: 39, 100: 69, 1000: FASTEST}  # meetings a second, about, and where the slider stands for them
HEAD = ["| Meetings a second | Frames a second | 95 % of frames within | Script | Style and layout | Main thread |"]
HEAD += ["|---|---|---|---|---|---|"]


def row(speed: int, times: list[float], cost: dict[str, float]) -> str:
    """A row of the table."""
    frames = 1000 * len(times) / sum(times)
    late = sorted(times)[int(0.95 * (len(times) - 1))]
    cells = [f"{speed:,}", f"{frames:.0f}", f"{late:.0f} ms"]
    cells += [f"{one:.1f} ms" for one in (cost["script"], cost["style"] + cost["layout"], cost["all"])]
    return f"| {' | '.join(cells)} |"


def main() -> None:
    """Measures each speed."""
    server, page = Server(), Page()
    rows: list[str] = []
    try:
        page.browser.set_script_timeout(ANSWER)
        page.new(server.address)
        begin(page)
        for speed, slider in SPEEDS.items():
            times, cost = measured(page, slider, SECONDS)
            rows.append(row(speed, times, cost))
            print(rows[-1], f"median {median(times):.1f} ms", flush=True)
    finally:
        page.browser.quit()
        server.close()
    if "--write" in WORDS:
        write_between("develop/performance.md", "frames", [*HEAD, *rows])


if __name__ == "__main__":
    main()
