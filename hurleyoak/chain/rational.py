"""The same equations in fractions, without rounding, for few crowds."""
from __future__ import annotations

from fractions import Fraction
from typing import Callable, Sequence

import numpy as np

from .classes import Classes
from .space import Space, TooLarge

EXACT_CROWDS = 20_000
EXACT_CLASS = 150  # crowds that lead to each other
Fractions = list[Fraction]
Row = dict[int, int]  # weights by crowd
ZERO = Fraction(0)


class ExactEquations:
    """As `Equations`, whose calls it has; weights are whole numbers of a common scale."""

    def __init__(self, space: Space, classes: Classes, each: Callable[[str], None] = lambda told: None) -> None:
        if len(space) > EXACT_CROWDS or classes.largest > EXACT_CLASS:
            raise TooLarge
        self.scale, self.each = space.scale, each
        self.rows: list[Row] = [{} for _ in range(len(space))]
        for step, (one, two) in enumerate(zip(space.source.tolist(), space.target.tolist())):
            self.rows[one][two] = self.rows[one].get(two, 0) + space.exact_weight(step)
        self.leaving = [sum(row.values()) for row in self.rows]
        open_ = classes.order[classes.bounds[1] :]
        cuts = (np.nonzero(np.diff(classes.of[open_]))[0] + 1).tolist()
        self.classes: list[list[int]] = [part.tolist() for part in np.split(open_, cuts) if len(part)]

    def eliminate(self) -> None:
        """Nothing is kept between two solutions."""

    def backward(self, right: Sequence[Fraction]) -> Fractions:
        """x with (I - P) x = right, where x is known at closed classes."""
        found = list(right)
        for number, some in enumerate(self.classes):
            self.each(f"class {number:,} of {len(self.classes):,}")
            inside = set(some)
            rights = [
                found[one] * self.scale + sum(w * found[two] for two, w in self.rows[one].items() if two not in inside)
                for one in some
            ]
            matrix = [[Fraction(-self.rows[one].get(two, 0)) for two in some] for one in some]
            self._solve(some, matrix, rights, found)
        return found

    def visits(self, start: int) -> Fractions:
        """As that of `Equations`."""
        found = [ZERO] * len(self.rows)
        found[start] = Fraction(1)
        for number, some in enumerate(reversed(self.classes)):
            self.each(f"class {number:,} of {len(self.classes):,}")
            inside = set(some)
            matrix = [[Fraction(-self.rows[two].get(one, 0)) for two in some] for one in some]
            self._solve(some, matrix, [found[one] * self.scale for one in some], found)
            for one in some:
                for two, weight in self.rows[one].items():
                    if two not in inside:
                        found[two] += found[one] * Fraction(weight, self.scale)
        return found

    def _solve(self, some: list[int], matrix: list[Fractions], right: Fractions, found: Fractions) -> None:
        """Eliminates; each diagonal has what leaves its crowd."""
        size = len(some)
        for at, one in enumerate(some):
            matrix[at][at] = Fraction(self.leaving[one])
        for at in range(size):
            for low in range(at + 1, size):
                if matrix[low][at]:
                    part = matrix[low][at] / matrix[at][at]
                    right[low] -= part * right[at]
                    matrix[low] = [a - part * b if b else a for a, b in zip(matrix[low], matrix[at])]
        for at in range(size - 1, -1, -1):
            rest = sum((matrix[at][k] * found[some[k]] for k in range(at + 1, size) if matrix[at][k]), ZERO)
            found[some[at]] = (right[at] - rest) / matrix[at][at]

    def after(self, start: int, meetings: int) -> Fractions:
        """The distribution after so many meetings."""
        now = {start: 1}
        for done in range(meetings):
            self.each(f"{done:,} of {meetings:,} meetings")
            then: dict[int, int] = {}
            for one, part in now.items():
                stays = self.scale - self.leaving[one]
                if stays:
                    then[one] = then.get(one, 0) + part * stays
                for two, weight in self.rows[one].items():
                    then[two] = then.get(two, 0) + part * weight
            now = then
        whole = self.scale**meetings
        return [Fraction(now.get(at, 0), whole) for at in range(len(self.rows))]
