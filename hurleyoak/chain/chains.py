"""The chain of some crowds with equally many agents, and what it says of one of them."""
from __future__ import annotations

from fractions import Fraction
from importlib.util import find_spec
from math import inf, isfinite, sqrt
from typing import Any, Mapping, Sequence

import numpy as np

from ..faults import InputFault
from ..protocol.nets import Net
from ..protocol.reactions import Word
from .answers import After, Answer, Chances, Each, End, Number, quiet
from .classes import Classes
from .rational import ExactEquations
from .rules import Rules
from .solving import Equations
from .space import Space

AFTER_WORK = 4_000_000_000  # steps of all meetings, for a distribution after so many
EXACT_WORK = 2_000_000
Numbers = Sequence[Number]


class Chain:
    """All crowds that come up, and the equations between them; in fractions where that is asked for."""

    def __init__(
        self,
        net: Net,
        starts: Sequence[Mapping[Word, int]],
        fractions: bool = False,
        each: Each = quiet,
        rules: Rules | None = None,
    ) -> None:
        needs_scipy()
        self.rules = rules or Rules(net, [word for start in starts for word in start])
        found = [self.rules.counts(start) for start in starts]
        self.space = Space(self.rules, found, each=lambda crowds: each(f"{crowds:,} crowds"))
        self.classes = Classes(self.space)
        self.fractions = fractions
        self.equations: Any = (ExactEquations if fractions else Equations)(self.space, self.classes, each)
        self.is_open = self.classes.level > 0
        self.outputs = self._outputs()

    def _outputs(self) -> list[bool | None]:
        """What all agents output in all crowds of a class, by class; None where they differ."""
        by_crowd = self.space.outputs()
        low, high = np.full(self.classes.count, 2), np.full(self.classes.count, -2)
        np.minimum.at(low, self.classes.of, by_crowd)
        np.maximum.at(high, self.classes.of, by_crowd)
        return [bool(one) if one == two and one >= 0 else None for one, two in zip(low.tolist(), high.tolist())]

    def number(self, start: Mapping[Word, int]) -> int:
        """The number of a crowd."""
        return self.space.number(self.rules.counts(start))

    def _zero(self) -> Number:
        return Fraction(0) if self.fractions else 0.0

    def _solved(self, right: Numbers) -> Numbers:
        made = [Fraction(k) for k in right] if self.fractions else np.array(right, dtype=float)
        found: Numbers = self.equations.backward(made)
        return found

    def means(self) -> Numbers:
        """The mean number of meetings to a closed class, of each crowd."""
        return self._solved([int(is_open) for is_open in self.is_open])

    def chances(self, is_wanted: Sequence[bool]) -> Numbers:
        """The chance to come into one of the closed classes that are wanted, of each crowd."""
        return self._solved([int(is_wanted[at] and not is_open) for at, is_open in zip(self.classes.of, self.is_open)])

    def answer(self, start: Mapping[Word, int], meetings: int | None = None) -> Answer:
        """All that is said of one crowd; with the distribution after so many meetings."""
        self.equations.eliminate()
        at = self.number(start)
        visits, means = self.equations.visits(at), self.means()
        ends = self._ends(visits)
        deviation, variance = self._deviation(visits, means, means[at])
        return Answer(
            agents=self.space.agents,
            crowds=len(self.space),
            steps=len(self.space.source),
            ends=ends,
            terminal=sum((end.chance for end in ends if end.size == 1), self._zero()),
            outputs=self._by_output(ends),
            mean=means[at] if self.fractions or isfinite(means[at]) else inf,
            deviation=deviation,
            variance=variance,
            after=None if meetings is None else self.after(at, meetings),
        )

    def _ends(self, visits: Any) -> list[End]:
        """The closed classes with their chances, the likeliest first."""
        ends = []
        for some in self.classes.closed:
            chance = sum((visits[k] for k in some), Fraction(0)) if self.fractions else float(visits[some].sum())
            crowd = self.rules.named(self.space.crowds[some[0]].tolist())
            ends.append(End(crowd, len(some), self.outputs[self.classes.of[some[0]]], chance))
        return sorted(ends, key=lambda end: -end.chance)

    def _by_output(self, ends: Sequence[End]) -> Chances:
        return {
            value: sum((end.chance for end in ends if end.output is value), self._zero())
            for value in (True, False, None)
        }

    def _deviation(self, visits: Any, means: Any, mean: Number) -> tuple[float, Fraction | None]:
        """Of the meetings: each crowd that is visited adds twice its mean less one to their mean square."""
        if self.fractions:
            square = sum((v * (2 * t - 1) for v, t, o in zip(visits, means, self.is_open) if o), Fraction(0))
            variance = square - Fraction(mean) ** 2
            return sqrt(variance), variance
        if not mean or not isfinite(mean):
            return float(mean), None
        parts = (visits[self.is_open] / mean) * ((2 * means[self.is_open] - 1) / mean)
        return float(mean) * sqrt(max(0.0, float(parts.sum()) - 1)), None

    def after(self, start: int, meetings: int) -> After:
        """The distribution after so many meetings."""
        each, most = len(self.space.source) + len(self.space), EXACT_WORK if self.fractions else AFTER_WORK
        if meetings * each > most:
            raise InputFault(
                f"{meetings:,} meetings of {len(self.space):,} crowds are too many steps: {most // each:,} meetings fit"
            )
        chances = self.equations.after(start, meetings)
        likely = sorted(((-chance, k) for k, chance in enumerate(chances) if chance))
        crowds = [(self.rules.named(self.space.crowds[k].tolist()), -less) for less, k in likely]
        outputs: Chances = {True: self._zero(), False: self._zero(), None: self._zero()}
        for value, chance in zip(self.space.outputs().tolist(), chances):
            outputs[{1: True, 0: False}.get(value)] += chance
        ended = sum((chance for is_open, chance in zip(self.is_open, chances) if not is_open), self._zero())
        return After(meetings, crowds, outputs, ended)


def needs_scipy() -> None:
    """InputFault where SciPy isn't installed."""
    if find_spec("scipy") is None:
        raise InputFault("a chain needs SciPy: apt-get install python3-scipy")
