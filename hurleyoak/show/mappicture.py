"""Pictures of a graph with its agents' states: a panel for each time, by matplotlib or in the terminal."""
from __future__ import annotations

from typing import Any

from ..simulation.maps import Map
from .look import COLOURS, GREY, spelled
from .pictures import LEFT, MARKS, needs_matplotlib
from .textplot import MARKS as SIGNS

PANELS = 6
ACROSS = 3
PANEL = 2.6  # inches
TITLE = 0.75  # inches above the panels
WIDTH = 64  # signs on a line of the terminal
LEAST_DOT, MOST_DOT, DOT_ROOM = 2.0, 120.0, 9000.0
GONE = "."


def panels_of(made: Map) -> list[int]:
    """The times that are drawn: the first, the last, and those between them that are spread best."""
    count = len(made.times)
    if count <= PANELS:
        return list(range(count))
    return [round(at * (count - 1) / (PANELS - 1)) for at in range(PANELS)]


def _names(made: Map) -> list[str]:
    """The states that some agent has at some time."""
    return sorted({state for row in made.rows for state in row if state})


def draw_map(made: Map) -> Any:
    """The panels; a state has one colour and one mark in all of them."""
    pyplot = needs_matplotlib()
    from matplotlib.collections import LineCollection

    shown, names = panels_of(made), _names(made)
    across = min(ACROSS, len(shown))
    down = -(-len(shown) // across)
    size = (PANEL * across + 1.0, PANEL * down + TITLE)
    figure, grid = pyplot.subplots(down, across, figsize=size, squeeze=False)
    figure.text(LEFT, 1 - 0.25 / size[1], _title(made), fontsize=11, fontweight="bold", va="center", gid="title")
    lines = [[made.places[u], made.places[v]] for u, v in made.edges]
    dot = max(LEAST_DOT, min(MOST_DOT, DOT_ROOM / len(made.rows)))
    for at, axes in enumerate(grid.flat):
        axes.set_axis_off()
        if at >= len(shown):
            continue
        axes.set_aspect("equal")
        axes.add_collection(LineCollection(lines, colors=GREY, linewidths=0.5, alpha=0.6, zorder=1))
        axes.set_title(_time(made, shown[at]), fontsize=8.5, color=GREY)
        for number, name in enumerate(names):
            here = [place for place, row in zip(made.places, made.rows) if row[shown[at]] == name]
            axes.scatter(
                [x for x, _ in here],
                [y for _, y in here],
                s=dot,
                color=COLOURS[number % len(COLOURS)],
                marker=MARKS[number % len(MARKS)],
                label=name,
                zorder=2,
                linewidths=0,
            )
        axes.margins(0.08)
    handles, labels = grid.flat[0].get_legend_handles_labels()
    figure.legend(handles, labels, loc="center right", fontsize=9, frameon=False)
    figure.subplots_adjust(left=0.02, right=1 - 0.95 / size[0], top=1 - TITLE / size[1], bottom=0.02)
    return figure


def _title(made: Map) -> str:
    return ", ".join(part for part in (made.title, f"{made.graph}, {len(made.rows):,} agents") if part)


def _time(made: Map, at: int) -> str:
    return f"{spelled(made.times[at])} {made.unit}"


def text_map(made: Map) -> str:
    """The same as signs: a grid line by line, any other graph in the order of its agents."""
    names = _names(made)
    signs = {name: SIGNS[at % len(SIGNS)] for at, name in enumerate(names)}
    width, out = made.width or WIDTH, [_title(made)]
    for at in panels_of(made):
        row = "".join(signs.get(states[at], GONE) for states in made.rows)
        out += ["", _time(made, at), *(row[low : low + width] for low in range(0, len(row), width))]
    return "\n".join([*out, "", "  ".join(f"{sign} {name}" for name, sign in signs.items())])
