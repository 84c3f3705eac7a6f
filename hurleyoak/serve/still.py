"""A protocol as one page without a server: its text, Play, Net, the certificate as it was certified, and curves that
were measured."""
from __future__ import annotations

import hashlib
from html import escape
from typing import Any, Sequence

from ..engine import program
from ..building.commands import program_told
from ..protocol.predicates import value_at
from ..show.explaining import explain
from ..show.modules import one_script, web_file
from ..show.onefile import data, policy
from ..show.outcome import told as simulation_told
from ..show.values import answer_value, explanation_value
from ..simulation.carrying import Limits, carry_out
from ..simulation.crowds import crowd_words
from ..simulation.curves import Curve, Recorder
from ..simulation.simulation import ENDLESS, TERMINAL, Simulation
from ..text.files import load
from ..text.loaded import Loaded, bundle_in, strict_bundle
from ..text.writer import loaded_text
from ..version import RELEASE
from .protocol import net_value, proof_state
from .shaping import drawings

STYLES = ("colours.css", "base.css", "proof.css", "parts.css")
OF_SOURCES = "is that of the sources"
USUAL = {1: [1000], 2: [800, 200]}  # agents of each variable where no crowd is given
USUAL_MORE = 300  # agents of each of three variables or more
NEAR = 10  # crowds that are tried, with more agents of the first variable
MOST_CHANGES = 10**6  # changes of a run, after which it is stopped

_PAGE = """<!doctype html>
<html lang="en">
<head>
<meta charset="utf-8">
<meta http-equiv="Content-Security-Policy" content="{policy}">
<meta name="viewport" content="width=device-width, initial-scale=1">
<meta name="color-scheme" content="light dark">
<title>{title}</title>
<style>{style}</style>
</head>
<body class="still">
<header id="head">
  <span class="file">{title}</span>
  <code class="predicate">{predicate}</code>
  <span class="space"></span>
  <span id="verdict" role="status"></span>
  <button id="theme" type="button" class="plain" title="Light or dark"></button>
</header>
<main id="both">
  <section id="left" aria-label="The protocol's text"><div id="editor"></div></section>
  <div id="divider"></div>
  <section id="right" aria-label="What it does">
    <div id="tabs" role="tablist" aria-label="Views"></div>
    <div id="panels"></div>
  </section>
</main>
<footer id="foot"><span>{about}</span></footer>
<div id="says" hidden role="status"></div>
<noscript><pre>{text}</pre></noscript>
<script type="application/json" id="data">{data}</script>
<script type="module">{script}</script>
</body>
</html>
"""


def usual_counts(loaded: Loaded) -> tuple[int, ...] | None:
    """The crowd whose curve a page shows where none is given; None where the file leaves it and its neighbours out."""
    many = len(loaded.net.names)
    usual = USUAL.get(many, [USUAL_MORE] * many)
    near = ((usual[0] + more, *usual[1:]) for more in range(NEAR))
    return next((counts for counts in near if loaded.meets(counts)), None)


def measured(loaded: Loaded, counts: tuple[int, ...], seed: int) -> tuple[Curve, list[str]]:
    """The curve of a run by counts, and what is said of it."""
    value = None if loaded.predicate is None else value_at(loaded.whole_tree(), counts)
    run, recorder = Simulation(loaded.net, counts, seed), Recorder()
    carry_out(run, Limits(TERMINAL, ENDLESS, MOST_CHANGES), value, recorder.watch(run))
    return recorder.curve(run, loaded.name, crowd_words(loaded.net, counts), seed), simulation_told(run, value)


def curve_value(curve: Curve, told: Sequence[str]) -> dict[str, Any]:
    """A curve for the page: times in meetings for each agent, rows by the numbers of names."""
    return {
        "title": f"{curve.crowd}, seed {curve.seed}",
        "names": curve.names,
        "outputs": curve.outputs,
        "times": [when / curve.agents for when in curve.times],
        "rows": [[[at, k] for at, k in enumerate(row)] for row in curve.rows],
        "last": curve.last_change / curve.agents if curve.terminal else None,
        "told": list(told),
    }


def _checked(loaded: Loaded) -> dict[str, Any] | None:
    """What the program says of the whole proof in the text; None where there is none."""
    if proof_state(loaded) != "whole":
        return None
    bundle = strict_bundle(loaded)
    line = bundle.line()
    answer = program.check(line)
    told = explanation_value(explain(loaded, bundle, answer.text))
    mark = hashlib.sha256(f"{line}\n".encode()).hexdigest()
    return {**answer_value(answer), "bundle": line, "hash": mark, "explanation": told}


def page_value(loaded: Loaded, name: str, text: str, curves: list[dict[str, Any]]) -> dict[str, Any]:
    """All that the page knows."""
    check = _checked(loaded)
    of_sources = OF_SOURCES in program_told()
    who = (
        "the program was that of the sources"
        if of_sources
        else "it isn't known from which sources the program was built"
    )
    return {
        "name": name,
        "text": text,
        "net": net_value(loaded),
        "jobs": {"net": drawings(loaded)},
        "check": check,
        "program": f"hurleyoak {RELEASE}; {who}" if check else "",
        "isOfSources": of_sources,
        "curves": curves,
    }


def named_text(loaded: Loaded, text: str | None) -> tuple[Loaded, str]:
    """The protocol by names: JSON, or a member of a family (None), is written as a `.pop` file, so that each move and
    node has its line."""
    if loaded.written is not None and text is not None:
        return loaded, text
    made = loaded_text(loaded, bundle_in(loaded))
    return load(made, loaded.name), made


def still_page(value: dict[str, Any]) -> str:
    """The page in one file: nothing is fetched from elsewhere."""
    script = one_script("stillpage", {"api": "still"})
    style = "".join(map(web_file, STYLES))
    return _PAGE.format(
        policy=policy(script, style),
        title=escape(value["name"]),
        predicate=escape(value["net"]["predicate"] or ""),
        style=style,
        about=(
            "One file, without a server. What it plays it plays itself; what is certified, the program has certified."
        ),
        text=escape(value["text"]),
        data=data(value),
        script=script,
    )
