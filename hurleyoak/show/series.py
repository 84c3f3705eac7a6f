"""What a curve's picture shows: a few named lines, by state or by output, over parallel time."""
from __future__ import annotations

from dataclasses import dataclass, replace
from typing import Sequence

from ..faults import InputFault
from ..simulation.curves import Curve
from ..simulation.ensembles import Ensemble
from ..simulation.growth import quantile
from ..simulation.timeline import PER_AGENT, ROUNDS
from .look import spelled

STATES_SHOWN = 7
ROWS_SHOWN = 240
PARTS = ("counts", "low", "high")


@dataclass(frozen=True)
class Series:
    """A line: counts at each time, and the band around them where they are means of many runs.

    It counts the agents in `states`, which have the numbers `places`, or those with an output. `field` has the counts
    of the mean field, where that is drawn too.
    """

    name: str
    counts: Sequence[float]
    low: Sequence[float] = ()
    high: Sequence[float] = ()
    states: tuple[str, ...] = ()
    places: tuple[int, ...] = ()
    output: bool | None = None
    field: Sequence[float] = ()


@dataclass(frozen=True, kw_only=True)
class Shown:
    """The lines of a picture, their times in a unit, and the words around them."""

    title: str
    times: list[float]
    series: list[Series]
    agents: int
    last_change: float
    since: float | None
    end: str
    unit: str = PER_AGENT
    about: str = ""  # what stands below the title in place of the usual
    field_times: Sequence[float] = ()
    is_smooth: bool = False  # whether counts change between the times too


def _thinned(curve: Curve) -> list[int]:
    """The rows that are drawn: all, or those at which some part of the picture's width has gone by, each with the row
    before it, which held up to there."""
    times = curve.places
    kept: list[int] = []
    for at, time in enumerate(times):
        if at in (0, len(times) - 1) or time - times[kept[-1]] >= times[-1] / ROWS_SHOWN:
            kept += [at] if not kept or kept[-1] == at - 1 else [at - 1, at]
    return kept


def cropped(curve: Curve, low: float, high: float | None) -> Curve:
    """The part of a curve between two times, in its unit; InputFault where it has none there."""
    if curve.unit:
        return _cropped_by_moments(curve, low, high)
    first, last = low * curve.agents, curve.times[-1] if high is None else high * curve.agents
    before = [at for at, time in enumerate(curve.times) if time < first][-1:]
    inside = [at for at, time in enumerate(curve.times) if first <= time <= last]
    if first >= curve.times[-1] or first >= last:
        raise InputFault(
            f"the curve goes from 0 to {spelled(curve.times[-1] / curve.agents)} meetings per agent, and has nothing"
            " there"
        )
    kept = [*before, *inside]
    times = [max(curve.times[at], int(first)) for at in kept]
    rows = [curve.rows[at] for at in kept]
    end = int(min(last, curve.times[-1]))
    if times[-1] < end:
        times, rows = [*times, end], [*rows, rows[-1]]
    return replace(curve, times=times, rows=rows)


def _cropped_by_moments(curve: Curve, low: float, high: float | None) -> Curve:
    """The same of a curve that has the time of each row."""
    last = curve.moments[-1] if high is None else min(high, curve.moments[-1])
    kept = [at for at, moment in enumerate(curve.moments) if low <= moment <= last]
    before = [at for at, moment in enumerate(curve.moments) if moment < low][-1:]
    if low >= last or not kept and not before:
        raise InputFault(f"the curve goes up to {spelled(curve.moments[-1])} ({curve.unit}), and has nothing there")
    rows = [*before, *kept]
    moments = [max(low, curve.moments[at]) for at in rows]
    return replace(
        curve,
        times=[curve.times[at] for at in (*rows, rows[-1])],
        rows=[curve.rows[at] for at in (*rows, rows[-1])],
        moments=[*moments, last],
    )


Group = tuple[str, list[int]]  # a line's name, and the numbers of the states that it counts together


def _groups(
    names: Sequence[str], outputs: Sequence[bool], most: Sequence[float], by_output: bool | None, states: Sequence[str]
) -> list[Group]:
    """The lines of a picture: the states that are named; by output where it is asked for, or where there are many
    states."""
    for name in states:
        if name not in names:
            raise InputFault(f"`{name}` is no state of the curve; it has {', '.join(names)}")
    if states:
        return [(name, [names.index(name)]) for name in states]
    if by_output or by_output is None and len(names) > 2 * STATES_SHOWN:
        both = (("true", True), ("false", False))
        return [(word, [at for at, out in enumerate(outputs) if out == value]) for word, value in both]
    first = sorted(range(len(names)), key=lambda at: -most[at])
    kept = sorted(first if len(first) <= STATES_SHOWN else first[: STATES_SHOWN - 1])
    groups = [(names[at], [at]) for at in kept]
    if len(kept) < len(first):
        groups.append((f"{len(first) - len(kept)} others", [at for at in first if at not in kept]))
    return groups


def groups_of(
    names: Sequence[str], outputs: Sequence[bool], most: Sequence[float], by_output: bool | None, states: Sequence[str]
) -> list[Series]:
    """The same as lines that have no counts yet."""
    found = _groups(names, outputs, most, by_output, states)
    by = {"true": True, "false": False} if [name for name, _ in found] == ["true", "false"] and not states else {}
    return [
        Series(name, (), states=tuple(names[at] for at in group), places=tuple(group), output=by.get(name))
        for name, group in found
    ]


def shown_of(curve: Curve, by_output: bool | None, states: Sequence[str] = ()) -> Shown:
    """The lines of a curve."""
    kept = _thinned(curve)
    rows = [curve.rows[at] for at in kept]
    most = [max(row[at] for row in rows) for at in range(len(curve.names))]
    groups = groups_of(curve.names, curve.outputs, most, by_output, states)
    series = [replace(group, counts=[sum(row[at] for at in group.places) for row in rows]) for group in groups]
    per = curve.agents
    end = "terminal" if curve.terminal else "not terminal at the end"
    title = ", ".join(part for part in (curve.title, curve.crowd, f"seed {curve.seed}" if curve.seed else "") if part)
    since = None if curve.since is None else curve.since / per
    return Shown(
        title=title,
        times=[curve.places[at] for at in kept],
        series=series,
        agents=max(per, *(sum(row) for row in rows)),
        last_change=curve.change_moment if curve.unit else curve.last_change / per,
        since=curve.since_moment if curve.unit else since,
        end=end,
        unit=curve.unit or PER_AGENT,
    )


def shown_of_many(made: Ensemble, by_output: bool | None, states: Sequence[str] = ()) -> Shown:
    """The lines of many runs: means, each with its band."""
    most = [max(max(row[at] for row in rows) for rows in made.rows) for at in range(len(made.names))]
    series = []
    for group in groups_of(made.names, made.outputs, most, by_output, states):
        mean, low, high = ([band[part] for band in made.bands(group.places)] for part in range(3))
        series.append(replace(group, counts=mean, low=low, high=high))
    runs = len(made.rows)
    per = 1 if made.unit == ROUNDS else made.agents
    last = quantile(sorted(float(k) / per for k in made.last_changes), 0.5)
    about = (
        f"{spelled(made.agents)} agents; mean of {runs} runs, with the band of eight in ten; "
        f"last change after {spelled(last)} {ROUNDS if per == 1 else PER_AGENT} in the median"
    )
    title = ", ".join(part for part in (made.title, made.crowd, f"{runs} runs") if part)
    return Shown(
        title=title,
        times=made.times,
        series=series,
        agents=made.agents,
        last_change=last,
        since=None,
        end="",
        unit=made.unit,
        about=about,
    )


def part_of(shown: Shown, low: float, high: float) -> Shown:
    """The part of a picture between two times, where it has some."""
    kept = [at for at, time in enumerate(shown.times) if low <= time <= high]
    if len(kept) < 2:
        raise InputFault(
            f"the curve goes from 0 to {spelled(shown.times[-1])} meetings per agent, and has nothing there"
        )
    series = [
        replace(one, **{part: [getattr(one, part)[at] for at in kept if getattr(one, part)] for part in PARTS})
        for one in shown.series
    ]
    return replace(shown, times=[shown.times[at] for at in kept], series=series)


def ending(shown: Shown) -> str:
    """What the picture says below its title."""
    field = "; dots: the mean field" if shown.field_times else ""
    if shown.about:
        return shown.about.partition("; last change")[0] + field if field else shown.about
    source = f"last change after {spelled(shown.last_change)} {shown.unit if shown.unit == PER_AGENT else ''}".rstrip()
    since = "the outputs differ" if shown.since is None else f"agreed since {spelled(shown.since)}"
    return f"{spelled(shown.agents)} agents; {source}; {since}; {shown.end}{field}"
