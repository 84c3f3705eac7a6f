"""The search for a tree of cases, guided by candidate wrong ends: points that meet all facts of a branch."""
from __future__ import annotations

from dataclasses import dataclass
from math import floor
from typing import Self, Sequence

import numpy as np

from ..proof.facts import EQUAL, HOLDS, open_cases
from ..proof.bundles import Node, Present, Split
from .branch import GaveUp, Tried, WrongEnd
from .entering import Entering
from .frames import EPSILON, Frame, Lemma
from .howfar import note
from ..proof.items import Array, Case, Cases, Item, Row, Zeros, fact_of, row_of
from .lemmas import WORDS, node_of
from .limits import Limit
from .trees import Entered, Grown, Opened, ending, grown

SPLITS = 24  # fractions that are tried for a split
DEEPEST = 3_000  # frames


@dataclass(frozen=True)
class Way:
    """How a search goes."""

    ahead: int  # candidates for `present` whose cases are both tried
    is_plain: bool = False  # whether it keeps to the points of its own branch
    is_told: bool = False  # whether it tells how far it is
    depth: int = 0  # how many `first` may stand one below the other


class Search(Entering):
    """Finds the tree below the frames that are there."""

    def __init__(self, cases: Cases, base: Case, limit: Limit, way: Way, exact: bool) -> None:
        super().__init__(cases, base, limit, exact)
        self.way, self.depth = way, way.depth
        self.ahead, self.is_plain = way.ahead, way.is_plain
        self._opened: list[Item] = []
        self.is_told = way.is_told
        self._part, self._shut = 1.0, 0.0  # the part of the tree that the branch is, and that of all closed branches

    def below(self, entered: Entered, branch: Sequence[Item], limit: Limit) -> Self:
        """A search in the entries of a set, below a branch with these facts."""
        way = Way(self.ahead, is_plain=True, depth=self.depth - 1)
        made = type(self)(self.cases.still, entered.flow, limit, way, self.exact)
        made.base = entered.base(branch)
        made.stack.push(made.base[len(entered.flow) :])
        made._opened = self._opened
        return made

    # -- how far it is

    def _close(self, node: Grown) -> Grown:
        """Notes that the branch is closed, by this node."""
        self._shut += self._part
        if self.is_told:
            note(self._shut)
        return node

    # -- opening, frames

    def _open(self, pending: list[Row]) -> Grown:
        if not pending:
            return self._branch()
        item, rest = pending[0], pending[1:]
        done = []
        every = open_cases(fact_of(item, 0))
        self._part /= len(every)
        for facts in every:
            items: Case = [row_of(fact) for fact in facts]
            frame = self.stack.push(items)
            more = [row for row in items if isinstance(row, Row) and row.kind == HOLDS]
            done.append((items, self._popped(frame, self._open(more + rest))))
        self._part *= len(every)
        return grown(Opened(item), done)

    def _popped(self, frame: Frame, node: Grown) -> Grown:
        """Takes the top frame away; its lemmas stand above the node, where it rests on them."""
        assert self.stack.frames.pop() is frame
        for lemma in reversed(frame.lemmas):
            if node.used.isdisjoint(lemma.cases[lemma.main]):
                continue
            kept = frame.items[: lemma.at]
            sides = {
                i: self.summed(self.stack.frames, [*kept, *items])
                for i, items in enumerate(lemma.cases)
                if i != lemma.main
            }
            done = [(items, node if i == lemma.main else sides[i]) for i, items in enumerate(lemma.cases)]
            node = grown(lemma.node, done, entered=lemma.entered)
        return node

    # -- branching

    def _branch(self) -> Grown:
        """The tree below the current frames."""
        if len(self.stack.frames) > DEEPEST:
            raise GaveUp("the tree would be too deep")
        while True:
            self.in_time()
            node = self.closed()
            if node is not None:
                return self._close(node)
            point = self.stack.top.pool[-1]
            again, node = self._exclude(point)
            if again:
                continue
            if node is not None:
                return node
            if any(frame.mods for frame in self.stack.frames):
                there = [q for q in self.undecided() if point[self.cases.inputs + q] > EPSILON]
                if there:
                    return self._present_one_of(there)
            whole = self.solver.whole_point(self.stack.frames)
            if whole is None:
                return self._split()
            again, node = self._exclude(whole)
            if not again and node is None:
                again, node = self.come_in(whole)
            if not again and node is None:
                raise WrongEnd(whole)
            if node is not None:
                return node

    def _exclude(self, point: Array) -> tuple[bool, Grown | None]:
        """Excludes the point: by a lemma (then the branch is looked at again), or by a node; by neither where nothing
        here does."""
        if self.easy_lemma(point):
            return True, None
        node = self._present(point)
        return (False, node) if node is not None else self._hard(point)

    def shown(self, items: Case) -> Grown:
        """The tree of a case of the branch."""
        frame = self.stack.push(items)
        self.floor = len(self.stack.frames) - 1
        return self._popped(frame, self._branch())

    def cased(self, node: Node, entered: Entered | None = None) -> Grown:
        """A node with all its cases searched."""
        done = []
        every = list(self.cases.of(node))
        self._part /= len(every)
        for items in every:
            frame = self.stack.push(items)
            done.append((items, self._popped(frame, self._branch())))
        self._part *= len(every)
        return grown(node, done, entered=entered)

    def _present(self, point: Array) -> Grown | None:
        """Branches on a state of two that could react at this point's end; None where its end is terminal."""
        crowd, near = self.sets.crowd(point), self.cases.near
        here = np.nonzero(crowd > EPSILON)[0]
        able = [int(p) for p in here if any(near[p, q] and (q != p or crowd[p] > 1 + EPSILON) for q in here)]
        return self._present_one_of(able) if able else None

    def _present_one_of(self, able: list[int]) -> Grown:
        """Branches on one of these states, by look-ahead."""
        first = self.cases.inputs
        alive = self.stack.top.most[first : self.cases.first_move] > 0
        partners = (self.cases.near & alive).sum(axis=1)
        able.sort(key=lambda p: (-partners[p], p))
        best: tuple[tuple[int, int], Node, list[Case], list[Tried]] | None = None
        for k, p in enumerate(able[: self.ahead]):
            cases = list(self.cases.of(Present(p)))
            tried = [self.tried(p, i, items) for i, items in enumerate(cases)]
            count = sum(one.is_closed for one in tried)
            rank = (count, int(partners[p]) if count == 0 or tried[0].is_closed else 0)
            if best is None or rank > best[0]:
                best = rank, Present(p), cases, tried
            if count == 2 or (best[0][0] == 1 and k):
                break
        assert best is not None
        return self._with_known(best[1], best[2], best[3])

    def _with_known(self, node: Node, cases: list[Case], tried: list[Tried]) -> Grown:
        done = []
        self._part /= len(cases)
        for items, known in zip(cases, tried):
            if known.residue is not None:
                done.append((items, self._close(ending(known.residue))))
            elif known.is_closed:
                done.append((items, self._close(self.summed(self.stack.frames, items))))
            else:
                frame = self.stack.push(items, known.frame)
                done.append((items, self._popped(frame, self._branch())))
        self._part *= len(cases)
        return grown(node, done)

    def _hard(self, point: Array) -> tuple[bool, Grown | None]:
        """Excludes the point by a small siphon or trap of the moves that it takes: as a lemma where one case alone
        stays open."""
        best: tuple[int, str, frozenset[int]] | None = None
        for word in WORDS:
            for states in self.small_sets(word, point):
                live = [
                    i
                    for i, items in enumerate(self.cases.of(node_of(word, states)))
                    if self.side_point(items) is not None
                ]
                if len(live) == 1:
                    self.promote(word, states, live[0])
                    return True, None
                if best is None or len(live) < best[0]:
                    best = len(live), word, states
        return (False, self.cased(node_of(best[1], best[2]))) if best else (False, None)

    def _split(self) -> Grown:
        """Where whole numbers exclude what fractions allow: splits a fraction, decides on a state, or splits a small
        count."""
        point = self.stack.top.pool[-1]
        best: tuple[int, Split] | None = None
        fractions = [a for a in range(self.cases.variables) if abs(point[a] - round(point[a])) > EPSILON]
        for a in fractions[:SPLITS]:
            node = Split(((a, 1),), -floor(point[a]))
            shut = sum(self.side_point(items) is None for items in self.cases.of(node))
            if best is None or shut > best[0]:
                best = shut, node
        undecided = self.undecided()
        if best and (best[0] >= 2 or not undecided):
            return self.cased(best[1])
        if undecided:
            return self._present_one_of(undecided)
        return self._split_count(point)

    def _split_count(self, point: Array) -> Grown:
        fixed = {
            int(item.variables[0])
            for frame in self.stack.frames
            for item in frame.items
            if isinstance(item, Row) and item.kind == EQUAL and len(item.variables) == 1
        }
        fixed |= {
            int(a)
            for frame in self.stack.frames
            for item in frame.items
            if isinstance(item, Zeros)
            for a in item.variables
        }
        for a in [*range(self.cases.inputs, self.cases.first_move), *range(self.cases.inputs)]:
            if a in fixed or point[a] < EPSILON:
                continue
            cost = np.zeros(self.cases.variables)
            cost[a] = 1
            low, high = self.solver.point(self.stack.frames, cost), self.solver.point(self.stack.frames, -cost)
            if low is not None and high is not None and high[a] - low[a] <= 2 + EPSILON:
                return self.cased(Split(((a, 1),), -floor(low[a] - EPSILON) + 1))
        raise GaveUp(
            "no whole numbers were found that meet the facts of a branch, and no split that shows there are none"
        )
