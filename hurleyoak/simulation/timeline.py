"""When the meetings of a run happen: in a network's own time, or in meetings per agent.

A network's meetings come by exponential gaps of one rate, whatever they change (Gillespie 1977). So which comes next
doesn't depend on when it comes, and the times are drawn beside the run, from a stream of their own. The time of m
meetings more is drawn by Gamma's law, and the number of meetings in a span of time by Poisson's. Where that number is
known, the times are those of uniform points. All of it is exact.
"""
from __future__ import annotations

from dataclasses import dataclass
from fractions import Fraction
from random import Random
from typing import Iterable

from ..faults import InputFault
from ..text.networks import Network
from .seeds import seed_of

PER_AGENT, ROUNDS = "meetings per agent", "rounds"
LARGEST = 1e18  # meetings in a span of time
STREAM_BITS = 64


@dataclass(frozen=True)
class Pace:
    """How many meetings happen in a unit of time: of a network in this volume, else one for each agent. In rounds,
    the numbers of meetings are those of rounds."""

    network: Network | None
    volume: Fraction | None
    rounds: bool = False

    def at(self, agents: int) -> Fraction:
        """The same for so many agents."""
        if self.rounds:
            return Fraction(1)
        if self.network is None or self.volume is None:
            return Fraction(agents)
        return self.network.meetings(agents, self.volume)

    def told(self, agents: int) -> str:
        """The factor in words, of a network."""
        assert self.volume is not None
        return f"a meeting takes {float(1 / self.at(agents)):.4g} on average in volume {number_told(self.volume)}"

    @property
    def unit(self) -> str:
        """What an axis of time says."""
        if self.rounds:
            return ROUNDS
        return PER_AGENT if self.volume is None else f"time of the network, in volume {number_told(self.volume)}"


BY_AGENT, BY_ROUND = Pace(None, None), Pace(None, None, True)


def number_told(value: Fraction) -> str:
    """A number in six digits, whole where it is."""
    return str(value) if value.denominator == 1 else f"{float(value):.6g}"


@dataclass
class Span:
    """Meetings of one rate, from a time on; where `end` is known, as many of them as `last` says happen before it."""

    time: float
    meetings: int
    rate: Fraction
    end: float | None = None
    last: int = 0


class Timeline:
    """The spans of a run. Each time is drawn once, and all are asked for at the end."""

    def __init__(self, pace: Pace, seed: int, time: float = 0.0) -> None:
        self.pace, self.seed = pace, seed
        self.random = Random(seed_of("clock", str(seed)))
        self.spans: list[Span] = []
        self.time = time

    @property
    def is_drawn(self) -> bool:
        """Whether times are drawn, and no plain quotients."""
        return self.pace.volume is not None

    def begin(self, meetings: int, agents: int, end: float | None = None) -> int | None:
        """Begins a span now; the number of its last meeting, where its end is known."""
        span = Span(self.time, meetings, self.pace.at(agents), end)
        self.spans.append(span)
        if end is None:
            return None
        more = float(span.rate) * max(0.0, end - self.time)
        if more > LARGEST:
            raise InputFault(f"the time {end:g} is too far: over {LARGEST:g} meetings")
        span.last = meetings + (poisson(more, self.random) if self.is_drawn else round(more))
        return span.last

    def over(self, time: float) -> None:
        """The last span is over at its end."""
        self.time = time

    def at(self, numbers: Iterable[int]) -> dict[int, float]:
        """The times of some meetings; of one at which a span begins, that of the span before."""
        out: dict[int, float] = {}
        wanted = sorted(set(numbers))
        for place, span in enumerate(self.spans):
            high = self.spans[place + 1].meetings if place + 1 < len(self.spans) else None
            now, time = span.meetings, span.time
            for number in wanted:
                if number in out or number < span.meetings or high is not None and number > high:
                    continue
                time = self._later(span, now, time, number)
                now = number
                out[number] = time
        return out

    def _later(self, span: Span, now: int, time: float, number: int) -> float:
        """The time of a meeting of a span, where that of an earlier one is known."""
        more = number - now
        if not more:
            return time
        if not self.is_drawn:
            return span.time + float((number - span.meetings) / span.rate)
        if span.end is None:
            return time + self.random.gammavariate(more, float(1 / span.rate))
        if number > span.last:
            return span.end
        return time + (span.end - time) * self.random.betavariate(more, span.last - number + 1)


class Grid:
    """The meetings up to each time of a grid with equal steps; of a network they are drawn."""

    def __init__(self, pace: Pace, agents: int, step: float, seed: int) -> None:
        self.mean, self.is_drawn = float(pace.at(agents)) * step, pace.volume is not None
        self.random = Random(seed_of("clock", str(seed)))
        self.known = [0]

    def meetings(self, number: int) -> int:
        """How many meetings there were by the time of this number, from 0 on."""
        if not self.is_drawn:
            return round(number * self.mean)
        while len(self.known) <= number:
            self.known.append(self.known[-1] + poisson(self.mean, self.random))
        return self.known[number]


def poisson(mean: float, random: Random) -> int:
    """A number by Poisson's law."""
    try:
        from numpy.random import PCG64, Generator
    except ImportError:
        raise InputFault("a time of a network needs numpy: apt-get install python3-numpy") from None
    return int(Generator(PCG64(random.getrandbits(STREAM_BITS))).poisson(mean))
