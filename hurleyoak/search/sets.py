"""Traps and siphons of a list of moves, and which of them exclude a point (Blondin, Esparza, Jaax and Meyer 2017)."""
from __future__ import annotations

from typing import Iterable, Sequence

import numpy as np

from .frames import EPSILON
from ..proof.items import Array, Cases

States = frozenset[int]


class Sets:
    """Sets of states of one leaf."""

    def __init__(self, cases: Cases) -> None:
        self.cases = cases

    def greatest_trap(self, states: Iterable[int], moves: Sequence[int]) -> States:
        """The greatest set within `states` that none of the moves takes from without putting into it."""
        p, q, r, s = self.cases.ends[:, list(moves)]
        return self._greatest(states, (p, q), (r, s))

    def greatest_siphon(self, states: Iterable[int], moves: Sequence[int]) -> States:
        """The greatest set within `states` that none of the moves puts into without taking from it."""
        p, q, r, s = self.cases.ends[:, list(moves)]
        return self._greatest(states, (r, s), (p, q))

    def _greatest(self, states: Iterable[int], there: tuple[Array, Array], back: tuple[Array, Array]) -> States:
        inside = self.cases.inside(list(states))
        return frozenset(np.nonzero(_greatest_within(inside, there, back))[0].tolist())

    def taken(self, point: Array, least: float = EPSILON) -> list[int]:
        """The moves that a point takes, more than `least` times."""
        out: list[int] = np.nonzero(point[self.cases.first_move :] > least)[0].tolist()
        return out

    def crowd(self, point: Array) -> Array:
        """How many agents a point has in each state at the end."""
        return point[self.cases.inputs : self.cases.first_move]

    def started(self, point: Array, least: float = EPSILON) -> set[int]:
        """The states in which a point starts somebody, helpers among them."""
        return set(self.cases.leaf.helpers) | {q for i, q in enumerate(self.cases.leaf.inputs) if point[i] > least}

    def trap_breaks(self, states: States, point: Array, taken: Sequence[int]) -> bool:
        """Whether somebody was in the set, which is empty at the point's end."""
        if not states:
            return False
        if not states.isdisjoint(self.started(point)):
            return True
        inside = self.cases.inside(sorted(states))
        r, s = self.cases.ends[2:, list(taken)]
        return bool((inside[r] | inside[s]).any())

    def siphon_breaks(self, states: States, point: Array, taken: Sequence[int]) -> bool:
        """Whether an agent is in the set or was taken from it, though nobody started there."""
        if not states:
            return False
        inside = self.cases.inside(sorted(states))
        if (self.crowd(point)[inside] > EPSILON).any():
            return True
        p, q = self.cases.ends[:2, list(taken)]
        return bool((inside[p] | inside[q]).any())

    def breaks(self, word: str, states: States, point: Array, taken: Sequence[int]) -> bool:
        """Whether a trap or siphon excludes a point."""
        return self.trap_breaks(states, point, taken) if word == "trap" else self.siphon_breaks(states, point, taken)

    def greatest(self, word: str, states: Iterable[int], moves: Sequence[int]) -> States:
        """The greatest trap or siphon."""
        return self.greatest_trap(states, moves) if word == "trap" else self.greatest_siphon(states, moves)

    def least(self, word: str, most: States, order: Sequence[int], point: Array, taken: Sequence[int]) -> States:
        """A least trap or siphon within `most` that excludes the point still: states are left out in this order, each
        that can be. As a smaller set excludes less, they are left out in blocks, twice as many as long as that
        goes."""
        p, q, r, s = self.cases.ends[:, list(taken)]
        there, back = ((p, q), (r, s)) if word == "trap" else ((r, s), (p, q))
        here = self.cases.inside(list(self.started(point))) if word == "trap" else self.crowd(point) > EPSILON
        here[back[0]] = here[back[1]] = True  # a set with one of these excludes the point
        inside, at, size = self.cases.inside(list(most)), 0, 1
        left = np.array([one for one in order if one in most], dtype=np.int64)
        while at < len(left):
            less = inside.copy()
            less[left[at : at + size]] = False
            less = _greatest_within(less, there, back)
            if (less & here).any():
                inside, size = less, 2 * size
                left = np.concatenate([left[:at], left[at:][less[left[at:]]]])
            elif size == 1:
                at += 1
            else:
                size = max(1, min(size, len(left) - at) // 2)
        return frozenset(np.nonzero(inside)[0].tolist())


def _greatest_within(inside: Array, there: tuple[Array, Array], back: tuple[Array, Array]) -> Array:
    while True:
        bad = (inside[there[0]] | inside[there[1]]) & ~(inside[back[0]] | inside[back[1]])
        if not bad.any():
            return inside
        inside[there[0][bad]] = False
        inside[there[1][bad]] = False
