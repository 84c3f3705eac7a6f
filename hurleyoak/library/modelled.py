"""A run as a modeller asks for it: from states or from a run's end, with events, in a network's own time."""
from __future__ import annotations

from fractions import Fraction
from numbers import Real
from typing import Iterable, Mapping

from ..faults import AskFault, InputFault
from ..protocol.nets import Net
from ..protocol.predicates import value_at
from ..protocol.reactions import Reactions
from ..simulation.asking import is_stop, read_event, stop_of
from ..simulation.curves import Curve
from ..simulation.events import crowd_of
from ..simulation.graphs import graph_given
from ..simulation.placing import Placing
from ..simulation.simulation import Simulation
from ..simulation.staged import Plan, Staged
from ..simulation.timeline import BY_AGENT, BY_ROUND, Pace
from ..text.files import in_volume
from ..text.loaded import Loaded
from . import asked
from .results import Run

Start = Run | Mapping[str, int]


def modelled(
    loaded: Loaded,
    counts: tuple[int, ...] | None,
    start: Start | None,
    seed: int,
    until: str | float | None,
    changes: int | None,
    events: Iterable[tuple[float, str]],
    volume: float | None,
    places: tuple[object, bool] = (None, False),
) -> tuple[Simulation, Curve, bool | None]:
    """The run at its end, its curve, and the predicate's value where it has one to be compared with."""
    text = until if isinstance(until, str) and is_stop(until) else ""
    limits = asked.limits("terminal" if text else until, changes)
    try:
        condition, time = stop_of(loaded, text)
        happen = tuple(read_event(loaded, f"{at:.15g} {what}") for at, what in events)
    except AskFault as fault:
        raise InputFault(str(fault)) from None
    begun = start if isinstance(start, Run) else None
    if start is not None:
        crowd = crowd_of(loaded.net, dict(begun.crowd if begun else start))  # type: ignore[arg-type]
    else:
        assert counts is not None
        crowd = Reactions(loaded.net).start(counts)
    agents = sum(crowd.values())
    placing = placing_of(*places, agents, seed, volume)
    plan = Plan(
        limits=placing.limits(limits, agents) if placing else limits,
        condition=condition,
        time=time,
        events=happen,
        volume=volume_of(loaded, volume),
        begun=begun.meetings if begun else 0,
        begun_at=begun.times[-1] if begun else 0.0,
        placing=placing,
    )
    has_value = counts is not None and start is None and not happen and loaded.predicate is not None
    value = value_at(loaded.whole_tree(), counts) if has_value and counts is not None else None
    staged = Staged(loaded, plan, seed, crowd, value)
    staged.carry_out()
    return staged.run, staged.curve(loaded.name, ""), value


def volume_of(loaded: Loaded, volume: float | None) -> Fraction | None:
    """The volume that is asked for."""
    if volume is None:
        return None
    if loaded.network is None:
        raise InputFault(f"`volume` is for a reaction network (`.crn`), and {loaded.name} has no rates")
    if not isinstance(volume, Real) or not 0 < float(volume) < float("inf"):
        raise InputFault(f"`volume` is a number above 0, found {volume!r}")
    return Fraction(str(float(volume)))


def placing_of(graph: object, rounds: bool, agents: int, seed: int, volume: float | None) -> Placing | None:
    """How agents have places of their own, where they have."""
    if graph is None and not rounds:
        return None
    if volume is not None:
        raise InputFault("`volume` is for meetings of all pairs, without `graph` and `rounds`")
    try:
        return Placing(None if graph is None else graph_given(graph, agents, seed), rounds)
    except AskFault as fault:
        raise InputFault(str(fault)) from None


def in_own_time(loaded: Loaded, agents: int, volume: float | None, placing: Placing | None = None) -> tuple[Net, Pace]:
    """The net and the pace of its meetings: of a network in its volume, the agents less one where none is given."""
    if placing is not None:
        return loaded.net, BY_ROUND if placing.rounds else BY_AGENT
    given = volume_of(loaded, volume)
    if loaded.network is None:
        return loaded.net, BY_AGENT
    inside = given or Fraction(agents - 1)
    return in_volume(loaded, agents, inside).net, Pace(loaded.network, inside)


def has_more(loaded: Loaded, until: object) -> bool:
    """Whether a run has a time of its own, or stops at a time or a condition."""
    return loaded.network is not None or isinstance(until, str) and is_stop(until)
