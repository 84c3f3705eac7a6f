"""Curves hold no stale crowd: what a trace, a journal's curve and a picture show is true but for a small part of the
time."""
from __future__ import annotations

from bisect import bisect_right
from random import Random

import pytest

from hurleyoak.show.series import ROWS_SHOWN, shown_of
from hurleyoak.simulation.carrying import Limits, carry_out
from hurleyoak.simulation.curves import SPACING, Curve, Recorder
from hurleyoak.simulation.meetings import meetings_curve
from hurleyoak.simulation.simulation import Simulation
from hurleyoak.text.files import load

from .conftest import EXAMPLES

# the two slow moves make long pauses, each right behind a change
PAUSES = """inputs l: L x: X
L + X -> M + Y @ 1/1000
X + Y -> Y + Y
M + Y -> N + Z @ 1/5000
yes Y
"""
MAJORITY = (EXAMPLES / "majority/majority.pop").read_text()
History = list[tuple[int, dict[str, int]]]


def recorded(text: str, counts: tuple[int, ...], seed: int) -> tuple[Curve, History]:
    """The curve of a run, and all its crowds with their times."""
    run, recorder = Simulation(load(text, "text").net, counts, seed), Recorder()
    named = run.reactions.name
    history = [(0, {named(word): k for word, k in run.crowd().items()})]
    watch = recorder.watch(run)

    def on_change() -> None:
        watch()
        history.append((run.meetings, {named(word): k for word, k in run.crowd().items()}))

    carry_out(run, Limits(changes=2_000), None, on_change)
    return recorder.curve(run, "", "", seed), history


def stale(times: list[int], rows: list[dict[str, int]], history: History) -> float:
    """The greatest part of the time so far by which a row is held after it ceased to be true."""
    changes = [when for when, _ in history]
    worst = 0.0
    for at, (time, row) in enumerate(zip(times, rows)):
        now = bisect_right(changes, time) - 1
        assert row == history[now][1]
        if now + 1 < len(changes) and at + 1 < len(times):
            worst = max(worst, (times[at + 1] - changes[now + 1]) / times[at + 1])
    return worst


def rows_of(curve: Curve) -> list[dict[str, int]]:
    """The crowds of a curve."""
    return [{name: k for name, k in zip(curve.names, row) if k} for row in curve.rows]


@pytest.mark.parametrize(
    "text, counts, seed",
    [*((PAUSES, (1, 99), seed) for seed in range(1, 5)), *((MAJORITY, (30, 29), seed) for seed in range(1, 9))],
    ids=lambda value: "" if isinstance(value, str) else str(value),
)
def test_a_row_is_held_as_long_as_it_is_true(text: str, counts: tuple[int, ...], seed: int) -> None:
    """But for one part in SPACING; and the last row stands once."""
    curve, history = recorded(text, counts, seed)
    assert stale(curve.times, rows_of(curve), history) <= 1 / SPACING
    assert curve.times == sorted(set(curve.times)) and curve.times[-1] == history[-1][0]


def test_the_long_pause() -> None:
    """All X are gone soon after the first slow move, and the trace says so."""
    curve, _ = recorded(PAUSES, (1, 99), 1)
    at = bisect_right(curve.times, 150_000) - 1
    assert rows_of(curve)[at] == {"M": 1, "Y": 99}


def test_a_picture_holds_no_stale_row() -> None:
    """Of the rows that a picture leaves out, the last before a drawn one isn't."""
    curve, history = recorded(PAUSES, (1, 99), 1)
    shown = shown_of(curve, None)
    times = [round(time * curve.agents) for time in shown.times]
    rows = [{one.name: int(one.counts[at]) for one in shown.series if one.counts[at]} for at in range(len(times))]
    last, changes = times[-1], [when for when, _ in history]
    for time, row, until in zip(times, rows, times[1:]):
        now = bisect_right(changes, time) - 1
        assert row == history[now][1]
        assert now + 1 == len(changes) or until - changes[now + 1] <= last / ROWS_SHOWN + last / SPACING


def test_the_curve_of_meetings() -> None:
    """The same of a list of meetings, in which a pause follows a change that came right after a row."""
    net = (EXAMPLES / "majority/net.json").read_text().strip()
    pause = Random(3)
    pairs = [(0, 1)] * 400 + [(0, 300), (1, 301)] + [tuple(pause.sample(range(2, 300), 2)) for _ in range(2_000)]
    curve = meetings_curve(f"{net}\ncrowd x=300 y=10\n" + "".join(f"{a} {b}\n" for a, b in pairs), "meetings")
    assert rows_of(curve)[bisect_right(curve.times, 1_000) - 1]["B"] == 8
    assert curve.times == [0, 401, 402, 2_402]
