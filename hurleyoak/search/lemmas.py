"""Traps and siphons that exclude a point: lemmas, which need no branching, and others."""
from __future__ import annotations

from typing import Iterable, Sequence

import numpy as np

from ..proof.bundles import Node, Siphon, Trap
from .branch import Branch
from .frames import EPSILON, Lemma
from ..proof.items import Array
from .sets import States

SHRINK = 40  # trials at most to make one trap smaller
PATIENCE = 100  # points at most that make a set smaller
FAILURES = 5  # in a row, behind which the moves of other branches' points count too
WORDS = ("siphon", "trap")


def node_of(word: str, states: Iterable[int]) -> Node:
    """The node of a set."""
    key = tuple(sorted(states))
    return Trap(key) if word == "trap" else Siphon(key)


class Lemmas(Branch):
    """Finds lemmas for the branch, and puts each as high as its other cases close."""

    floor = 1
    is_plain = False  # a plain search looks neither for points of many moves nor at the moves of other branches
    failed: dict[str, int]
    seen: Array

    def add_lemma(self, level: int, lemma: Lemma) -> None:
        """Puts a lemma above the subtree of a frame."""
        frame = self.stack.frames[level]
        lemma.at = len(frame.items)
        frame.lemmas.append(lemma)
        self.stack.add(level, lemma.cases[lemma.main])

    def promote(self, word: str, states: Iterable[int], main: int = 2) -> None:
        """Adds the lemma as high above as its other cases close."""
        node = node_of(word, states)
        cases = list(self.cases.of(node))
        low, high = self.floor, len(self.stack.frames) - 1
        while low < high:
            middle = (low + high) // 2
            if all(self.is_empty(middle, items) for i, items in enumerate(cases) if i != main):
                high = middle
            else:
                low = middle + 1
        self.add_lemma(low, Lemma(node, cases, main))

    def easy_lemma(self, point: Array) -> bool:
        """Adds a siphon or trap that excludes the point and needs no branch, if there is one."""
        for word in WORDS:
            found = self._easy(word, point, self.failed[word] >= FAILURES and not self.is_plain)
            self.failed[word] = 0 if found else self.failed[word] + 1
            if found:
                return True
        return False

    def _easy(self, word: str, point: Array, seen_too: bool) -> bool:
        """The set is the greatest one that the moves of the branch's known points respect. Where another case has a
        point too, its moves are added and the set gets smaller, until its other cases are closed or it excludes
        nothing. Where this failed before, the moves of points of other branches count from the start."""
        known = np.stack([*self.stack.top.pool, point])
        first = self.cases.first_move
        moves = (known[:, first:] > 1 - EPSILON).any(axis=0)
        starts = set(self.cases.leaf.helpers).union(*(self.sets.started(s, 1 - EPSILON) for s in known))
        if seen_too:
            moves |= self.seen & (self.stack.top.most[first:] > 0)
        taken = self.sets.taken(point)
        empty = set(np.nonzero(self.sets.crowd(point) <= EPSILON)[0].tolist())
        for turn in range(PATIENCE):
            inside = empty if word == "trap" else set(range(self.cases.states)) - starts
            states = self.sets.greatest(word, inside, np.nonzero(moves)[0].tolist())
            if not self.sets.breaks(word, states, point, taken):
                return False
            cases = self.cases.of(node_of(word, states))
            crossed = next(cases)
            row = crossed[0].variables
            other = self.side_point(crossed, self._untaken(moves) if turn and not self.is_plain else None)
            if other is not None:
                moves[row[other[row] > EPSILON] - first] = True
            else:
                other = self.side_point(next(cases))
                if other is None:
                    self.promote(
                        word,
                        states
                        if word == "siphon"
                        else self._smaller_trap(states, np.nonzero(moves)[0].tolist(), point, taken),
                    )
                    return True
                if word == "trap":
                    return False
                starts |= {q for i, q in enumerate(self.cases.leaf.inputs) if other[i] > EPSILON}
            moves |= other[first:] > 1 - EPSILON
            self.seen |= moves
        return False

    def _untaken(self, moves: Array) -> Array:
        """The moves that may be taken and that no known point takes."""
        first = self.cases.first_move
        return np.nonzero(~moves & (self.stack.top.most[first:] > 0))[0] + first

    def _is_closed_trap(self, states: Iterable[int]) -> bool:
        cases = self.cases.of(node_of("trap", states))
        return self.side_point(next(cases)) is None and self.side_point(next(cases)) is None

    def _smaller_trap(self, states: States, moves: Sequence[int], point: Array, taken: Sequence[int]) -> States:
        """A smaller trap that does the same, as its last case says more. First comes a least one by the moves alone,
        then one that keeps the inputs' states. Then blocks of states are left out, half of them first."""
        order = sorted(states, key=lambda q: (len(self.cases.space.partners[q]), q))
        bare: States = frozenset()

        def less(now: States, out: Iterable[int]) -> States:
            small = self.sets.greatest_trap(now.difference(out), moves)
            return small if self.sets.trap_breaks(small, point, taken) else bare

        for kept in (bare, states & frozenset(self.cases.leaf.inputs)):
            small = states
            for q in order:
                trial = less(small, [q]) if q in small else bare
                if trial and trial >= kept:
                    small = trial
            if self._is_closed_trap(small):
                return small
        return self._by_blocks(states, order, moves, point, taken)

    def _by_blocks(
        self, states: States, order: list[int], moves: Sequence[int], point: Array, taken: Sequence[int]
    ) -> States:
        size, tries = (len(order) + 1) // 2, 0
        while size and tries < SHRINK:
            at = 0
            while at < len(order) and tries < SHRINK:
                small = self.sets.greatest_trap(states.difference(order[at : at + size]), moves)
                good = self.sets.trap_breaks(small, point, taken)
                tries += good
                if good and self._is_closed_trap(small):
                    states = small
                    order = [q for q in order if q in states]
                else:
                    at += size
            size //= 2
        return states

    def small_sets(self, word: str, point: Array) -> list[States]:
        """Small sets that exclude the point by its own moves: the greatest one, and least ones in three orders."""
        taken = self.sets.taken(point)
        everything = range(self.cases.states)
        empty = set(np.nonzero(self.sets.crowd(point) <= EPSILON)[0].tolist())
        first = empty if word == "trap" else set(everything) - self.sets.started(point)
        most = self.sets.greatest(word, first, taken)
        if not self.sets.breaks(word, most, point, taken):
            return []
        found = {most}
        orders: list[Sequence[int]] = [
            sorted(everything, key=lambda q: len(self.cases.space.partners[q])),
            everything,
            everything[::-1],
        ]
        found.update(self.sets.least(word, most, order, point, taken) for order in orders)
        return sorted(found, key=lambda s: (len(s), sorted(s)))
