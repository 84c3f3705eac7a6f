"""The picture of a sweep over a family's parameter: meetings, and the share of wrong runs, by its value."""
from __future__ import annotations

import re
from typing import Any, Sequence

from ..faults import InputFault
from ..simulation.table import Row
from .look import COLOURS, spelled
from .pictures import MARKS, framed

NAMES = {"end": "to the end", "agreed": "to agreement"}

Point = tuple[int, Row]


def lines_of(rows: Sequence[Row], name: str) -> dict[str, list[Point]]:
    """For each net without the parameter, and for each crowd of it, the rows by the parameter's value."""
    found: dict[str, list[Point]] = {}
    for row in rows:
        match = re.search(rf"(?<![A-Za-z0-9_]){re.escape(name)}=(-?[0-9]+)", row.net)
        if match is not None:
            rest = f"{row.net[: match.start()]}{row.net[match.end() :]}".strip(" ,")
            found.setdefault(f"{rest}, {row.crowd}", []).append((int(match[1]), row))
    if not found:
        raise InputFault(f"no net of the table has a parameter `{name}`, as in `{name}=3`")
    return {line: sorted(points, key=lambda point: point[0]) for line, points in found.items()}


def _figure(row: Row, what: str, part: str) -> float:
    value = row.figures.get(f"{what} {part}")
    return float("nan") if value is None else value


def draw_scan(rows: Sequence[Row], what: str, name: str, told: str) -> Any:
    """Medians and quartiles over the parameter; below, the share of wrong runs where it is known."""
    lines = lines_of(rows, name)
    figure, axes = framed(f"Meetings {NAMES[what]}, by {name}", told)
    wrong = axes.twinx() if any(row.wrong is not None for points in lines.values() for _, row in points) else None
    for number, (line, points) in enumerate(lines.items()):
        colour, mark = COLOURS[number % len(COLOURS)], MARKS[number % len(MARKS)]
        xs = [value for value, _ in points]
        middle, low, high = (
            [_figure(row, what, part) for _, row in points] for part in ("median", "quarter", "three quarters")
        )
        axes.plot(xs, middle, color=colour, marker=mark, markersize=4, label=line, gid=f"scan{number}")
        axes.fill_between(xs, low, high, color=colour, alpha=0.2, linewidth=0, gid=f"quartiles{number}")
        if wrong is not None:
            shares = [float("nan") if row.wrong is None else row.wrong for _, row in points]
            wrong.plot(xs, shares, color=colour, linestyle=(0, (1, 1.6)), linewidth=1.2, gid=f"wrong{number}")
    axes.set_ylim(bottom=0)
    axes.set_xlabel(name, fontsize=9)
    axes.set_ylabel(f"meetings {NAMES[what]}: median and quartiles", fontsize=9)
    if wrong is not None:
        wrong.set_ylim(0, 1)
        wrong.set_ylabel("dots: the share of wrong runs", fontsize=9)
        wrong.tick_params(labelsize=8.5)
    axes.legend(fontsize=8.5, frameon=False)
    figure.subplots_adjust(left=0.12, right=0.9, top=0.84, bottom=0.12)
    return figure


def text_scan(rows: Sequence[Row], what: str, name: str) -> str:
    """The same as a table."""
    cells = [[name, "net and crowd", f"{what} median", "wrong"]]
    for line, points in lines_of(rows, name).items():
        for value, row in points:
            middle = row.figures.get(f"{what} median")
            wrong = "-" if row.wrong is None else f"{row.wrong:.3g}"
            cells.append([str(value), line, "-" if middle is None else spelled(middle), wrong])
    widths = [max(len(row[at]) for row in cells) for at in range(len(cells[0]))]
    return "\n".join("  ".join(part.ljust(width) for part, width in zip(row, widths)).rstrip() for row in cells)
