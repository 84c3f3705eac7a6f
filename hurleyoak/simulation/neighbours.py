"""Runs on a graph, where neighbours meet one pair at a time."""
from __future__ import annotations

from bisect import bisect_right
from typing import Callable, Sequence

from .placed import Pair, Placed
from .simulation import AGREED, ENDLESS, MEETINGS, TERMINAL


class OnGraph(Placed):
    """Neighbours meet, all edges and both ways of each equally likely. Edges on which nothing happens are skipped by a
    draw."""

    def _begin(self) -> None:
        self.pairs = 2 * len(self.edges)
        self.beside: list[list[int]] = [[] for _ in self.states]
        self.active: list[int] = []  # edges that may change something, by one way of each
        self.where = [-1] * self.pairs
        for at, (u, v) in enumerate(self.edges):
            self.beside[u].append(at)
            self.beside[v].append(at)
            self._look(at)

    def _look(self, edge: int) -> None:
        """Notes whether an edge may change something."""
        u, v = self.edges[edge]
        for way, (p, q) in ((2 * edge, (u, v)), (2 * edge + 1, (v, u))):
            is_active, at = self.made(self.states[p], self.states[q]) is not None, self.where[way]
            if is_active and at < 0:
                self.where[way] = len(self.active)
                self.active.append(way)
            elif not is_active and at >= 0:
                last = self.active.pop()
                if last != way:
                    self.active[at], self.where[last] = last, at
                self.where[way] = -1

    @property
    def is_terminal(self) -> bool:
        """Whether no neighbours change any more."""
        return not self.active

    def burst(
        self,
        changes: int,
        meetings: int = ENDLESS,
        agreed: Sequence[int] = (),
        on_change: Callable[[], None] | None = None,
    ) -> None:
        """As the simulation by counts does it."""
        for _ in range(changes):
            if self.yes in agreed or not self.active:
                self.ended = AGREED if self.yes in agreed else TERMINAL
                return
            way = self.active[self._drawn(len(self.active))]
            if self.meetings > meetings:
                self.meetings, self.ended = meetings, MEETINGS
                return
            u, v = self.edges[way // 2] if way % 2 == 0 else self.edges[way // 2][::-1]
            found = self.made(self.states[u], self.states[v])
            assert found is not None
            pairs, shares = found
            one = pairs[0] if len(pairs) == 1 else pairs[bisect_right(shares, self.random.randrange(shares[-1]))]
            if one != (self.states[u], self.states[v]):
                self._change(u, v, one, on_change)

    def _change(self, u: int, v: int, made: Pair, on_change: Callable[[], None] | None) -> None:
        yes = 0
        for agent, new in zip((u, v), made):
            old, self.states[agent] = self.states[agent], new
            self.counts[old] -= 1
            self.counts[new] += 1
            yes += self.says[new] - self.says[old]
        for edge in {*self.beside[u], *self.beside[v]}:
            self._look(edge)
        self.changes += 1
        self._noted(yes, on_change)
