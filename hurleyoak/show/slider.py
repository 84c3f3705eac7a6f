"""A list of meetings as text, and as one page with a slider. The crowd at the end is the one that the program
printed."""
from __future__ import annotations

from html import escape
from typing import Any, Sequence

from ..simulation.meetings import Meetings, Step, outputs_of, steps_of
from .modules import one_script, web_file
from .onefile import data, policy
from .pagestyle import STYLE

MOST_COUNTS = 4_000_000  # counts that a page holds

PARTS = """
input[type=range] { width: 100%; margin: 0.8rem 0 0; }
.told { font: 14px var(--mono); min-height: 1.6em; margin: 0.3rem 0 0.8rem; overflow-wrap: anywhere; }
.row { display: flex; gap: 0.4rem; }
button { font: inherit; color: inherit; background: var(--panel); border: 1px solid var(--strong);
  border-radius: 4px; padding: 0.2rem 0.7rem; cursor: pointer; }
table { border-collapse: collapse; width: 100%; }
th, td { text-align: left; padding: 0.15rem 0.6rem 0.15rem 0; font-variant-numeric: tabular-nums; }
td.count { text-align: right; }
td.wide { width: 60%; }
tr.none { color: var(--soft); }
.bar { display: block; height: 0.8rem; width: var(--share); border-radius: 2px; }
.yes { background: var(--good); }
.no { background: var(--bad); }
"""
SCRIPT = """const { sliderOf } = module_slider;
document.getElementById("slider").append(sliderOf(JSON.parse(document.getElementById("data").textContent)));
"""


def crowd_told(crowd: dict[str, int]) -> str:
    """A crowd in a line."""
    return ", ".join(f"{k} {name}" for name, k in crowd.items())


def is_as_printed(last: Step, printed: Sequence[str]) -> bool:
    """Whether the meetings lead to the crowd that the program printed, whose last line says whether it is terminal."""
    return [f"{name} {k}" for name, k in last.crowd.items()] == list(printed[:-1])


def meetings_text(steps: Sequence[Step]) -> str:
    """Each crowd, with the move between."""
    lines = [crowd_told(steps[0].crowd)]
    for step in steps[1:]:
        assert step.pair is not None
        lines += [f"{step.pair[0]},{step.pair[1]}".ljust(8) + (step.move or "nothing changes"), crowd_told(step.crowd)]
    return "\n".join(lines) + "\n"


def _value(made: Meetings, steps: Sequence[Step]) -> dict[str, Any]:
    names = sorted({name for step in steps for name in step.crowd})
    return {
        "names": names,
        "outputs": outputs_of(made, names),
        "agents": sum(steps[0].crowd.values()),
        "steps": [
            {"crowd": [step.crowd.get(name, 0) for name in names], "pair": step.pair, "move": step.move}
            for step in steps
        ],
    }


def is_small(made: Meetings) -> bool:
    """Whether a page holds all crowds."""
    return (len(made.pairs) + 1) * sum(len(leaf.states) for leaf in made.net.leaves) <= MOST_COUNTS


def meetings_page(made: Meetings, printed: Sequence[str]) -> str:
    """The whole page: nothing in it is fetched from elsewhere. Without scripts it shows the text."""
    steps = list(steps_of(made))
    style, script = web_file("colours.css") + STYLE + PARTS, one_script("slider") + SCRIPT
    title = escape(f"{made.crowd}: {len(made.pairs):,} meetings")
    parts = [
        '<!doctype html><html lang="en"><head><meta charset="utf-8">',
        f'<meta http-equiv="Content-Security-Policy" content="{policy(script, style)}">',
        (
            '<meta name="viewport" content="width=device-width,initial-scale=1"><meta name="color-scheme"'
            ' content="light dark">'
        ),
        f"<title>{title}</title><style>{style}</style></head>",
        f'<body><main><h1>{title}</h1><p class="verdict">{escape(printed[-1])}</p>',
        (
            '<p class="small">The line above is the proved program\'s, of the last crowd, which it played too. The'
            " crowds on the way are the workbench's own.</p>"
        ),
        f'<noscript><pre>{escape(meetings_text(steps))}</pre></noscript><div id="slider"></div></main>',
        f'<script type="application/json" id="data">{data(_value(made, steps))}</script>',
        f'<script type="module">{script}</script></body></html>',
    ]
    return "\n".join(parts) + "\n"
