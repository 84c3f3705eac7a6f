"""The same pictures as text, for a terminal."""
from __future__ import annotations

from math import log10
from typing import Sequence

from ..faults import InputFault
from ..simulation.growth import fits_of
from .look import apart, spelled
from .series import Shown, ending
from ..simulation.table import Row, points

WIDTH, HEIGHT = 64, 18
MARKS = "*o+x#@%"
FIT_MARK = "."


class _Canvas:
    """A grid of signs."""

    def __init__(self) -> None:
        self.grid = [[" "] * WIDTH for _ in range(HEIGHT)]

    def put(self, x: float, y: float, mark: str) -> None:
        """A sign at a place in the unit square; a fit's sign hides no other."""
        column, line = round(x * (WIDTH - 1)), HEIGHT - 1 - round(y * (HEIGHT - 1))
        if 0 <= column < WIDTH and 0 <= line < HEIGHT and (mark != FIT_MARK or self.grid[line][column] == " "):
            self.grid[line][column] = mark

    def lines(self, top: str, bottom: str, left: str, right: str, labels: Sequence[tuple[float, str]]) -> list[str]:
        """The grid with its axes; labels stand at heights from 0 to 1."""
        lead = max(len(top), len(bottom))
        behind = [""] * HEIGHT
        heights = apart([(1 - height) * (HEIGHT - 1) for height, _ in labels], 1, 0, HEIGHT - 1)
        for height, (_, name) in zip(heights, labels):
            at = min(max(round(height), 0), HEIGHT - 1)
            behind[at] += ("  " if behind[at] else "") + name
        out = []
        for at, line in enumerate(self.grid):
            head = top if at == 0 else bottom if at == HEIGHT - 1 else ""
            out.append(f"{head.rjust(lead)} |{''.join(line)} {behind[at]}".rstrip())
        out.append(" " * lead + " +" + "-" * WIDTH)
        out.append(" " * (lead + 2) + left + right.rjust(WIDTH - len(left)))
        return out


def text_curve(shown: Shown) -> str:
    """Counts over parallel time; `|` is the last change."""
    canvas = _Canvas()
    first = shown.times[0]
    length = max(shown.times[-1] - first, 1e-9)
    for line in range(HEIGHT):
        if first < shown.last_change <= first + length:
            canvas.put((shown.last_change - first) / length, line / (HEIGHT - 1), "|")
    for series, mark in zip(shown.series, MARKS):
        at = 0
        for column in range(WIDTH):
            while at + 1 < len(shown.times) and shown.times[at + 1] <= first + length * column / (WIDTH - 1):
                at += 1
            canvas.put(column / (WIDTH - 1), series.counts[at] / shown.agents, mark)
        for time, count in zip(shown.field_times, series.field):
            canvas.put((time - first) / length, count / shown.agents, FIT_MARK)
    labels = [(series.counts[-1] / shown.agents, f"{mark} {series.name}") for series, mark in zip(shown.series, MARKS)]
    axes = canvas.lines(str(shown.agents), "0", spelled(first), f"{spelled(shown.times[-1])} {shown.unit}", labels)
    return "\n".join([shown.title, ending(shown), "", *axes])


def _scaled(value: float, low: float, high: float) -> float:
    return (log10(value) - log10(low)) / (log10(high) - log10(low)) if high > low else 0.5


def text_table(rows: Sequence[Row], what: str) -> str:
    """Medians over the number of agents on double logarithmic axes; dots are the fitted growth."""
    nets = list(dict.fromkeys(row.net for row in rows))
    known = {net: found for net in nets if (found := points(rows, net, what))}
    every = [point for found in known.values() for point in found]
    if not every:
        raise InputFault("the table has no median that is known: half of the runs or more were undecided at each size")
    low, high = min(n for n, _ in every), max(n for n, _ in every)
    least, most = min(value for _, value in every), max(value for _, value in every)
    canvas = _Canvas()
    labels = []
    for net, mark in zip(known, MARKS * len(known)):
        fits = fits_of([n for n, _ in known[net]], [value for _, value in known[net]])
        for column in range(WIDTH if fits else 0):
            n = low * (high / low) ** (column / (WIDTH - 1))
            if known[net][0][0] <= n <= known[net][-1][0]:
                canvas.put(_scaled(n, low, high), _scaled(fits[0].at(n), least, most), FIT_MARK)
        for n, value in known[net]:
            canvas.put(_scaled(n, low, high), _scaled(value, least, most), mark)
        labels.append(
            (_scaled(known[net][-1][1], least, most), f"{mark} {net}" + (f": {fits[0].text}" if fits else ""))
        )
    head = (
        "median of meetings to "
        + ("the end" if what == "end" else "agreement")
        + " over agents, both logarithmic; dots: the fitted growth"
    )
    return "\n".join([head, "", *canvas.lines(spelled(most), spelled(least), str(low), f"{high} agents", labels)])
