"""`first` where nothing else excludes a point: nobody came into a set, as no move could be the first to bring one in.

The crowd before that move was reached without any move that touches the set. So a search of its own is made there,
with fewer moves, and with nothing dead.
"""
from __future__ import annotations

from typing import Iterator, Self, Sequence

import numpy as np

from ..proof.bundles import First, Node
from ..proof.entries import possible
from ..proof.facts import AT_LEAST
from ..proof.items import Array, Case, Cases, Item, Row, row_of
from .branch import GaveUp, WrongEnd
from .frames import EPSILON, Lemma, all_items
from .lemmas import Lemmas
from .limits import Limit
from .sets import States
from .shrinking import shrunk
from .solver import Trouble
from .trees import Entered, Grown

DEEPEST = 2  # how many `first` stand one below the other at most
SECONDS = 3.0  # for the entries of one set
SMALLER = 0.5  # for making their trees smaller
SETS = 40  # that are tried for one point

Key = tuple[States, tuple[Item, ...]]


class Entering(Lemmas):
    """Tries sets that a point enters, and keeps what was found of each."""

    depth = 0  # how many `first` may stand one below the other; at 0 none is tried

    def __init__(self, cases: Cases, base: Case, limit: Limit, exact: bool) -> None:
        super().__init__(cases, base, limit, exact)
        self.tried_sets: dict[Key, Entered | None] = {}

    def below(self, entered: Entered, branch: Sequence[Item], limit: Limit) -> Self:
        """A search in the entries of a set, below a branch with these facts."""
        raise NotImplementedError

    def shown(self, items: Case) -> Grown:
        """The tree of a case of the branch."""
        raise NotImplementedError

    def cased(self, node: Node, entered: Entered | None = None) -> Grown:
        """A node with all its cases searched."""
        raise NotImplementedError

    def entered(self, states: Sequence[int]) -> Entered:
        """The entries of a set, without trees."""
        return Entered(self.cases, *self.cases.before(states))

    def entry_cases(self, states: Sequence[int]) -> list[Case]:
        """For each move that enters that it is possible."""
        space = self.cases.space
        return [[row_of(fact) for fact in possible(space, t)] for t in space.entering(states)]

    def come_in(self, point: Array) -> tuple[bool, Grown | None]:
        """Excludes a point by `first`, if a set is found whose entries all close. It is a lemma where nobody starts in
        the set: then the branch is looked at again. Else it is a node."""
        if self.depth <= 0:
            return False, None
        level = self._level_of_inputs()
        for states in self._sets_entered(point):
            entered = self._known(frozenset(states), level)
            if entered is None:
                continue
            node = First(tuple(sorted(states)))
            cases = list(self.cases.of(node))
            if not self.is_empty(level, cases[0]):
                return False, self.cased(node, entered)
            self.add_lemma(level, Lemma(node, cases, 1, entered=entered))
            return True, None
        return False, None

    def _level_of_inputs(self) -> int:
        """The lowest frame up to which all stand that speaks of the inputs."""
        level = len(self.stack.frames) - 1
        while level > self.floor and not any(map(self.cases.about_inputs, self.stack.frames[level].items)):
            level -= 1
        return level

    def _sets_entered(self, point: Array) -> Iterator[States]:
        """Sets that the point enters: all states with a wrong output; single states of its end, first such ones; and
        single states that its moves name."""
        crowd, wrong = self.sets.crowd(point), self._wrong()
        here = [int(q) for q in np.nonzero(crowd > EPSILON)[0]]
        bad = [q for q in here if q in wrong]
        touched = sorted({int(q) for t in self.sets.taken(point) for q in self.cases.leaf.moves[t]} - set(here))
        order = [wrong] + [{q} for q in bad] + [{q} for q in [*here, *touched] if q not in bad]
        seen: set[States] = set()
        for one in order[:SETS]:
            states = frozenset(one)
            if states and states not in seen:
                seen.add(states)
                yield states

    def _wrong(self) -> set[int]:
        """The states of which the base facts say that somebody is in them, but for those in which inputs start."""
        first, last = self.cases.inputs, self.cases.first_move
        rows = [item for item in self.base if isinstance(item, Row) and item.kind == AT_LEAST]
        there = {int(a) - first for row in rows for a in row.variables if first <= a < last}
        return there - set(self.cases.leaf.inputs)

    def _known(self, states: States, level: int) -> Entered | None:
        """The entries of a set below a frame, with trees; None where one doesn't close. Each is looked for once."""
        branch = all_items(self.stack.frames[: level + 1])
        key = states, tuple(part for part in map(self.cases.about_inputs, branch) if part is not None)
        if key not in self.tried_sets:
            self.tried_sets[key] = self._searched(sorted(states), branch)
        return self.tried_sets[key]

    def _searched(self, states: Sequence[int], branch: Sequence[Item]) -> Entered | None:
        self.in_time()
        entered = self.entered(states)
        below = self.below(entered, branch, self.limit.after(SECONDS))
        try:
            entered.trees = [(items, below.shown(items)) for items in self.entry_cases(states)]
        except (WrongEnd, GaveUp, Trouble):
            return None
        below.limit, base = below.limit.after(SMALLER), below.base
        for at, (items, root) in enumerate(entered.trees):
            below.base = [*base, *items]
            entered.trees[at] = items, shrunk(below, root, below.limit)
        return entered
