"""Runs in rounds, in which many pairs meet at once."""
from __future__ import annotations

from bisect import bisect_right
from typing import Any, Callable, Sequence

from ..faults import InputFault
from .placed import Pair, Placed
from .simulation import AGREED, ENDLESS, MEETINGS, TERMINAL

ROUNDS_AT_ONCE = 64  # between two looks at the clock
WIDEST = 1 << 62  # sums of shares that numpy draws
FEW = 300  # agents, up to which pairs are looked at one by one


class InRounds(Placed):
    """In each round pairs meet that have no agent in common: a random matching. `meetings` counts rounds.

    Without a graph all agents are paired, one stays over where their number is odd, and all such matchings are equally
    likely. On a graph edges come in random order, and each takes part whose two agents are still free.
    """

    def _begin(self) -> None:
        self.is_open = False
        if self.agents <= FEW:
            return
        try:
            import numpy
        except ImportError:
            raise InputFault(f"rounds of over {FEW} agents need numpy: apt-get install python3-numpy") from None
        self.numpy = numpy
        self.generator = numpy.random.Generator(numpy.random.PCG64(self.random.getrandbits(64)))
        self.there = numpy.array([one for one, state in enumerate(self.states) if state >= 0])

    @property
    def is_terminal(self) -> bool:
        """Whether no two agents that may meet change any more."""
        if self.graph is not None:
            both = {(self.states[u], self.states[v]) for u, v in self.edges}
        else:
            there = [at for at, k in enumerate(self.counts) if k]
            both = {(p, q) for p in there for q in there if p != q or self.counts[p] > 1}
        return all(self.made(p, q) is None and self.made(q, p) is None for p, q in both)

    def _matching(self) -> tuple[Any, Any]:
        """The agents that begin a meeting in a round, and those whom they meet."""
        if self.graph is None:
            mixed = self.generator.permutation(self.there)
            half = len(mixed) // 2
            return mixed[:half], mixed[half : 2 * half]
        edges = len(self.edges)
        order, turned = self.generator.permutation(edges), self.generator.integers(2, size=edges)
        pairs = self.numpy.array(self._free(order.tolist(), turned.tolist()), dtype=int).reshape(-1, 2)
        return pairs[:, 0], pairs[:, 1]

    def _free(self, order: Sequence[int], turned: Sequence[int]) -> list[Pair]:
        """The edges in this order whose two agents are still free, some of them turned."""
        taken, found = [False] * len(self.states), []
        for at, is_turned in zip(order, turned):
            u, v = self.edges[at]
            if not taken[u] and not taken[v]:
                taken[u] = taken[v] = True
                found.append((v, u) if is_turned else (u, v))
        return found

    def _pairs(self) -> list[Pair]:
        """A random matching of few agents."""
        if self.graph is not None:
            order = list(range(len(self.edges)))
            self.random.shuffle(order)
            return self._free(order, [self.random.getrandbits(1) for _ in order])
        mixed = [one for one, state in enumerate(self.states) if state >= 0]
        self.random.shuffle(mixed)
        return list(zip(mixed[::2], mixed[1::2]))

    def _small_round(self) -> int:
        """A round of few agents."""
        states, changed = self.states, 0
        for u, v in self._pairs():
            found = self.made(states[u], states[v])
            if found is not None:
                pairs, shares = found
                one = pairs[0] if len(pairs) == 1 else pairs[bisect_right(shares, self.random.randrange(shares[-1]))]
                changed += one != (states[u], states[v])
                states[u], states[v] = one
        return changed

    def _drawn_of(self, shares: list[int], number: int) -> Any:
        """So many numbers of options, each by its share."""
        if shares[-1] >= WIDEST:
            return [bisect_right(shares, self.random.randrange(shares[-1])) for _ in range(number)]
        return self.numpy.searchsorted(shares, self.generator.integers(shares[-1], size=number), side="right")

    def _round(self) -> int:
        """Lets a round happen; how many pairs changed."""
        if self.agents <= FEW:
            return self._small_round()
        one, two = self._matching()
        states, changed = self.numpy.array(self.states), 0
        both = states[one] * len(self.words) + states[two]
        size = len(self.words)
        for code in self.numpy.unique(both).tolist():
            p, q = divmod(code, size)
            found = self.made(p, q)
            if found is None:
                continue
            here = self.numpy.nonzero(both == code)[0]
            chosen = self.numpy.array(found[0])[self._drawn_of(found[1], len(here))]
            states[one[here]], states[two[here]] = chosen[:, 0], chosen[:, 1]
            changed += int(((chosen[:, 0] != p) | (chosen[:, 1] != q)).sum())
        self.states = states.tolist()
        return changed

    def burst(
        self,
        changes: int,
        meetings: int = ENDLESS,
        agreed: Sequence[int] = (),
        on_change: Callable[[], None] | None = None,
    ) -> None:
        """Goes on to the round in which so many changes are reached, by some rounds at most."""
        most = self.changes + changes
        for _ in range(ROUNDS_AT_ONCE):
            if self.changes >= most:
                return
            if self.yes in agreed:
                self.ended = AGREED
                return
            if self.meetings >= meetings:
                self.ended = MEETINGS
                return
            self.meetings += 1
            changed, yes = self._round(), self.yes
            if not changed and not self.is_open and self.is_terminal:
                self.meetings, self.ended = self.meetings - 1, TERMINAL
                return
            self.is_open = not changed  # (then it is known that it isn't terminal, up to the next change)
            if changed:
                self.changes += changed
                self._count()
                more, self.yes = self.yes - yes, yes
                self._noted(more, on_change)
