"""The mean field beside a run: as lines of its own, or next to those of a picture."""
from __future__ import annotations

from dataclasses import replace
from typing import Sequence

from ..simulation.meanfield import Course
from .series import Series, Shown, groups_of

POINTS = 400  # times at which a mean field is drawn


def even_times(low: float, high: float, count: int = POINTS) -> list[float]:
    """So many times from one to another."""
    return [low + (high - low) * at / (count - 1) for at in range(count)]


def _counts(made: Course, series: Series) -> Sequence[float]:
    """What a line of a picture is in the mean field."""
    if series.output is not None:
        at = [i for i, output in enumerate(made.outputs) if output is series.output]
    else:
        at = [i for i, name in enumerate(made.names) if name in series.states]
    return [sum(row[i] for i in at) for row in made.rows]


def with_field(shown: Shown, made: Course) -> Shown:
    """A picture with the mean field next to its lines."""
    series = [replace(one, field=_counts(made, one)) for one in shown.series]
    return replace(shown, series=series, field_times=made.times)


def shown_of_field(made: Course, title: str, states: Sequence[str], by_output: bool | None) -> Shown:
    """The mean field alone."""
    most = [max(row[at] for row in made.rows) for at in range(len(made.names))]
    series = []
    for group in groups_of(made.names, made.outputs, most, by_output, states):
        series.append(
            replace(group, counts=[sum(row[at] for at in group.places) for row in made.rows], low=(), high=())
        )
    about = f"the mean field of {made.agents:,} agents, by SciPy: what a crowd without bound does"
    return Shown(
        title=title,
        times=made.times,
        series=series,
        agents=made.agents,
        last_change=0.0,
        since=None,
        end="",
        unit=made.unit,
        about=about,
        is_smooth=True,
    )
