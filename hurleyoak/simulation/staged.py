"""Runs with events, with conditions on counts, and in a network's own time: one stage after the other."""
from __future__ import annotations

from dataclasses import dataclass, field, replace
from fractions import Fraction
from random import Random
from typing import Callable

from ..protocol.nets import Net
from ..text.files import net_in_volume
from ..text.loaded import Loaded
from .carrying import Limits, batches_of, carry_out, go_on
from .conditions import Condition
from .curves import Curve, Recorder
from .events import Crowd, Event
from .placing import Placing
from .seeds import seed_of
from .simulation import CHANGES, CONDITION, ENDLESS, MEETINGS, TERMINAL, TIME, Simulation
from .timeline import PER_AGENT, Pace, Timeline

Say = Callable[[], None]


@dataclass(frozen=True, kw_only=True)
class Plan:
    """What a run is asked for: its limits, a condition or a time at which it stops, and its events. It begins at
    `meetings` and `time`. Agents have places of their own where `placing` says how."""

    limits: Limits
    condition: Condition | None = None
    time: float | None = None
    events: tuple[Event, ...] = ()
    volume: Fraction | None = None
    begun: int = 0
    begun_at: float = 0.0
    placing: Placing | None = None


@dataclass
class Staged:
    """A run by stages; an event ends a stage."""

    loaded: Loaded
    plan: Plan
    seed: int
    start: Crowd
    value: bool | None = None
    each: Say | None = None
    recorder: Recorder = field(default_factory=Recorder)

    def __post_init__(self) -> None:
        agents = sum(self.start.values())
        network, volume = self.loaded.network, self.plan.volume
        if network is not None and volume is None and self.plan.placing is None:
            volume = Fraction(agents - 1)
        is_rounds = self.plan.placing is not None and self.plan.placing.rounds
        self.pace = Pace(network, volume if network is not None else None, is_rounds)
        self.timeline = Timeline(self.pace, self.seed, self.plan.begun_at)
        self.random = Random(seed_of("events", str(self.seed)))
        make = self.plan.placing.make if self.plan.placing else simulation_of
        self.run = make(self._net(agents), self.start, self.seed)
        self.run.meetings = self.run.last_change = self.plan.begun
        if self.run.since is not None:
            self.run.since = self.plan.begun
        self.on_change = self.recorder.watch(self.run)
        self.recorder.times[0] = self.plan.begun

    def _net(self, agents: int) -> Net:
        """The net with its chances for so many agents."""
        network, volume = self.loaded.network, self.pace.volume
        if network is None or volume is None or network.is_paired:
            return self.loaded.net
        return net_in_volume(network, self.loaded.name, volume / (agents - 1))

    def carry_out(self) -> Simulation:
        """Runs to the first stop, whose reason is `ended` of the simulation."""
        run, plan = self.run, self.plan
        for event in [*sorted(plan.events, key=lambda event: event.time), None]:
            until = plan.time if event is None else event.time
            if event is not None and plan.time is not None and event.time > plan.time:
                continue
            goal = self.timeline.begin(run.meetings, run.agents, until)
            self._stage(goal)
            if goal is None or until is None or goal > plan.limits.meetings:
                break
            if event is None:
                run.ended = TIME if run.ended == MEETINGS else run.ended
            elif run.ended in (TERMINAL, MEETINGS):
                run.meetings = goal
                self.timeline.over(until)
                self._happen(event)
            else:
                break
        return run

    def _stage(self, goal: int | None) -> None:
        """Runs to a stop, or to a number of meetings."""
        run, limits = self.run, self.plan.limits
        part = replace(limits, meetings=min(limits.meetings, ENDLESS if goal is None else goal))
        run.ended = None
        if run.meetings >= part.meetings:
            run.ended = MEETINGS
        elif self.plan.condition is None:
            carry_out(run, part, self.value, self.on_change, self.each)
        else:
            self._to_condition(self.plan.condition, part)

    def _to_condition(self, condition: Condition, limits: Limits) -> None:
        """Runs until a condition holds; it is looked at as soon as it may."""
        run, batches = self.run, batches_of(self.run)
        most = limits.most_changes(run.agents)
        while run.ended is None:
            slack = condition.slack(run)
            if not slack:
                run.ended = CONDITION
            elif run.changes >= most:
                run.ended = CHANGES
            else:
                goal = min(most, run.changes + slack)
                go_on(run, batches, Limits(MEETINGS, limits.meetings, goal), (), self.on_change, self.each)
                run.ended = None if run.ended == CHANGES else run.ended

    def _happen(self, event: Event) -> None:
        """Lets an event happen, between two meetings."""
        run = self.run
        self.recorder.flush()
        crowd = event.happen(run.crowd(), self.random)
        run.put(self._net(sum(crowd.values())), crowd)
        self.recorder.next = 0
        self.on_change()

    def times(self, numbers: list[int]) -> dict[int, float]:
        """The times of some meetings."""
        return self.timeline.at(numbers)

    def curve(self, title: str, crowd: str) -> Curve:
        """The curve, with times where those aren't plain quotients."""
        run = self.run
        curve = self.recorder.curve(run, title, crowd, self.seed)
        if self.pace.unit == PER_AGENT and not self.plan.events and not self.plan.begun:
            return curve
        ends = [run.last_change, run.meetings, *([] if run.since is None else [run.since])]
        times = self.times([*curve.times, *ends])
        curve.unit = self.pace.unit
        curve.moments = [times[number] for number in curve.times]
        curve.change_moment = times[run.last_change]
        curve.since_moment = None if run.since is None else times[run.since]
        return curve


def simulation_of(net: Net, crowd: Crowd, seed: int) -> Simulation:
    """A simulation that begins with a crowd of any words."""
    run = Simulation(net, tuple(0 for _ in net.names), seed)
    run.put(net, crowd)
    return run
