"""Runs in a network's own time, and runs with events, for bench/exact.py, and the laws that they have to follow."""

from __future__ import annotations

from collections import Counter
from fractions import Fraction
from typing import Any, Callable

import numpy as np
from numpy.typing import NDArray
from scipy import stats

from hurleyoak.chain.chains import Chain as Solved
from hurleyoak.protocol.reactions import Reactions
from hurleyoak.show.chances import time_of
from hurleyoak.simulation import events, timeline
from hurleyoak.simulation.carrying import Limits
from hurleyoak.simulation.events import event_of
from hurleyoak.simulation.simulation import ENDLESS, TERMINAL
from hurleyoak.simulation.staged import Plan, Staged
from hurleyoak.simulation.timeline import Pace
from hurleyoak.text.files import in_volume, load
from hurleyoak.text.loaded import Loaded

Crowd = tuple[int, ...]
Floats = NDArray[np.float64]
Law = dict[Crowd, float]
Times = Callable[[Crowd], tuple[list[Law], Floats]]  # laws after 0, 1, .. meetings; the chance of an end by each

DECAY = "A -> B : 0.5\nB + C -> 2B : 7\ninputs a: A  c: C\nyes B\n"
DECAYING, DECAY_RATE, DECAY_TIME, DECAY_VOLUME = 8, 0.5, 1.2, 3
# an epidemic: half of all go after so many meetings, and later some come
EPIDEMIC = "inputs x: I  y: S\nS + I -> I + I\nyes I\n"
START, GOING, LEAVING, COMING = (4, 20), 12, 6, (1, 6)
EVENTS = [(0.5, "remove 50 percent"), (1.0, "add 6 S"), (1.0, "add 1 I")]
LOOK = 10  # meetings after the last event
BIAS = 0.01
STILL = Limits(TERMINAL, ENDLESS, ENDLESS)


def decays(runs: int, seed: int) -> tuple[Counter[int], list[float]]:
    """How many agents are left at a time, and the times of the last decay. Each decays by itself, so that both laws are
    known without a chain."""
    loaded, volume = load(DECAY, "decay.crn"), Fraction(DECAY_VOLUME)
    start = Reactions(loaded.net).start((DECAYING, 1))
    alive: Counter[int] = Counter()
    times = []
    for number in range(runs):
        plan = Plan(limits=STILL, time=DECAY_TIME, volume=volume)
        short = Staged(loaded, plan, seed + 2 * number, start)
        alive[short.carry_out().crowd().get((0,), 0)] += 1
        whole = Staged(loaded, Plan(limits=STILL, volume=volume), seed + 2 * number + 1, start)
        whole.carry_out()
        moment = whole.curve("", "").change_moment
        assert moment is not None
        times.append(moment)
    return alive, times


def decay_by_exact() -> tuple[float, float]:
    """The mean and the deviation of the last decay by `pop exact`."""
    loaded, volume = load(DECAY, "decay.crn"), Fraction(DECAY_VOLUME)
    start = Reactions(loaded.net).start((DECAYING, 1))
    net = in_volume(loaded, DECAYING + 1, volume).net
    return time_of(Solved(net, [start]).answer(start), Pace(loaded.network, volume))


def _epidemic() -> tuple[Loaded, Plan]:
    loaded = load(EPIDEMIC, "epidemic")
    return loaded, Plan(limits=STILL, events=tuple(event_of(loaded.net, at, text) for at, text in EVENTS))


def happenings(runs: int, seed: int) -> tuple[Counter[Crowd], list[int]]:
    """The crowds some meetings after the last event, and the last changes, counted from there."""
    loaded, plan = _epidemic()
    start = Reactions(loaded.net).start(START)
    agents = sum(START) // 2 + sum(COMING)
    looking = Plan(limits=STILL, events=plan.events, time=EVENTS[-1][0] + LOOK / agents)
    states = range(len(loaded.net.leaves[0].states))
    found: Counter[Crowd] = Counter()
    times = []
    for number in range(runs):
        crowd = Staged(loaded, looking, seed + 2 * number, start).carry_out().crowd()
        found[tuple(crowd.get((state,), 0) for state in states)] += 1
        whole = Staged(loaded, plan, seed + 2 * number + 1, start).carry_out()
        times.append(whole.last_change - GOING - LEAVING)
    return found, times


def happening_law(of: Times) -> tuple[Law, Floats]:
    """The same by the chains of the crowds between the events: the law of the crowd, and the chance of an end by each
    meeting."""
    left: Law = {}
    for crowd, part in of(START)[0][GOING].items():
        half = sum(crowd) // 2
        for stay in range(half + 1):
            chance = float(stats.hypergeom(sum(crowd), crowd[0], half).pmf(stay))
            _add(left, (stay, half - stay), part * chance)
    come: Law = {}
    for crowd, part in left.items():
        for later, chance in of(crowd)[0][LEAVING].items():
            _add(come, (later[0] + COMING[0], later[1] + COMING[1]), part * chance)
    law: Law = {}
    ended = np.zeros(1)
    for crowd, part in come.items():
        laws, ends = of(crowd)
        for later, chance in laws[LOOK].items():
            _add(law, later, part * chance)
        size = max(len(ended), len(ends))
        ended = np.pad(ended, (0, size - len(ended)), "edge") + part * np.pad(ends, (0, size - len(ends)), "edge")
    return law, ended


def _add(law: Law, crowd: Crowd, chance: float) -> None:
    if chance > 0:
        law[crowd] = law.get(crowd, 0.0) + chance


def plant() -> None:
    """A network's clock is faster by one per cent; of the agents that an event takes, one in a hundred is exchanged for
    one of the first kind."""
    span, drawn = timeline.Span, events.drawn

    def faster(time: float, meetings: int, rate: Fraction, *more: Any) -> timeline.Span:
        return span(time, meetings, rate * (1 + Fraction(BIAS)), *more)

    def biased(crowd: events.Crowd, sample: int, random: Any) -> events.Crowd:
        taken = drawn(crowd, sample, random)
        first = next(iter(crowd))
        for word, k in [*taken.items()]:
            more = sum(random.random() < BIAS for _ in range(k)) if word != first else 0
            more = min(more, crowd[first] - taken[first])
            taken[word] -= more
            taken[first] += more
        return taken

    setattr(timeline, "Span", faster)
    setattr(events, "drawn", biased)
