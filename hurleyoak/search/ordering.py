"""An order of a candidate's own moves: depth first over what is left of each move, so that no other crowds of its
input are built."""
from __future__ import annotations

from dataclasses import dataclass, field
from typing import Mapping

from ..proof.bundles import start_crowd
from ..protocol.nets import Leaf
from .limits import clock

ORDER_CROWDS = 200_000  # crowds at most that are looked at for an order
ORDER_MOVES = 1_000_000  # moves at most that are put into an order


@dataclass
class Order:
    """What came of it: the moves in an order in which a crowd allows them; or none, and whether all orders were tried.

    `crowds` is the number of crowds that were looked at.
    """

    moves: list[int] = field(default_factory=list)
    is_found: bool = False
    is_whole: bool = False
    crowds: int = 0


class _Search:
    """The crowd now, and how often each move is still to be taken; both go back as the search does."""

    def __init__(self, leaf: Leaf, counts: tuple[int, ...], taken: Mapping[int, int]) -> None:
        self.kinds = sorted(t for t, n in taken.items() if n)
        self.left = [taken[t] for t in self.kinds]
        self.ends = [leaf.moves[t] for t in self.kinds]
        self.crowd = start_crowd(leaf, counts)

    def next(self, first: int) -> int | None:
        """The first kind of move from a place on that is left and that the crowd allows."""
        for i in range(first, len(self.kinds)):
            p, q = self.ends[i][:2]
            if self.left[i] and self.crowd[q] and self.crowd[p] > (p == q):
                return i
        return None

    def take(self, i: int, times: int) -> None:
        """Takes a move, or takes it back where `times` is -1."""
        p, q, r, s = self.ends[i]
        self.left[i] -= times
        self.crowd[p] -= times
        self.crowd[q] -= times
        self.crowd[r] += times
        self.crowd[s] += times


def ordered(leaf: Leaf, counts: tuple[int, ...], taken: Mapping[int, int], stop: float) -> Order:
    """Looks for an order from an input in which each move is taken as often as `taken` says; until this process has
    worked up to `stop`.

    What is left of each move says which crowd it is, so each is looked at once.
    """
    if sum(taken.values()) > ORDER_MOVES:
        return Order()
    search = _Search(leaf, counts, taken)
    seen = {tuple(search.left)}
    path: list[int] = []
    first = 0
    while any(search.left):
        i = search.next(first)
        if i is None and not path:
            return Order(is_whole=True, crowds=len(seen))
        if i is None:
            first = path.pop()
            search.take(first, -1)
            first += 1
            continue
        search.take(i, 1)
        if (left := tuple(search.left)) in seen:
            search.take(i, -1)
            first = i + 1
            continue
        if len(seen) >= ORDER_CROWDS or clock() > stop:
            return Order(crowds=len(seen))
        seen.add(left)
        path.append(i)
        first = 0
    return Order([search.kinds[i] for i in path], True, True, len(seen))
