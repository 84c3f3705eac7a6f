"""The least bound of few moves: a cheapest way from the moves listed before them to all of them, over every choice of
layers."""
from __future__ import annotations

import heapq
from itertools import chain
from math import ceil
from typing import Callable, Iterator

from .layers import LayerFinder
from .limits import clock
from .waking import Moves

MOST_MOVES = 12
ROUNDING = 1e-6


def _parts(moves: list[int], dear: Callable[[Moves], bool]) -> Iterator[Moves]:
    """The parts of these moves, not all of them, that are not too dear; one that has a part too dear is so itself."""
    bad: set[int] = set()
    for mask in range(1, (1 << len(moves)) - 1):
        group = frozenset(t for i, t in enumerate(moves) if mask >> i & 1)
        if any(mask ^ 1 << i in bad for i in range(len(moves)) if mask >> i & 1) or dear(group):
            bad.add(mask)
        else:
            yield group


class _Spans:
    """What a layer of these moves costs in whole weights; None where it has none."""

    def __init__(self, finder: LayerFinder) -> None:
        self.finder = finder
        self.known: dict[Moves, int | None] = {}

    def at_least(self, moves: Moves) -> int | None:
        """What it costs at least, as fractions tell."""
        found = self.finder.weights(moves)
        return ceil(found[0] - ROUNDING) if found else None

    def passes(self, moves: Moves, limit: int) -> bool:
        """Whether it costs so much or more, or has no weights."""
        least = self.at_least(moves)
        return least is None or least >= limit

    def of(self, moves: Moves) -> int | None:
        """The least greatest weight."""
        if moves not in self.known:
            found = self.finder.weights(moves, whole=True) if self.finder.weights(moves) else None
            self.known[moves] = round(found[0]) if found else None
        return self.known[moves]


def least_groups(
    finder: LayerFinder, deadline: float, below: int = 1 << 60, first: Moves = frozenset(), moves: Moves | None = None
) -> list[Moves] | None:
    """Groups of these moves, or of all, behind the `first` ones, with the least bound; None where none is below a
    known one, or the time is up."""
    every = first | (moves if moves is not None else frozenset(finder.leaf.active))
    spans = _Spans(finder)
    best: dict[Moves, int] = {first: 0}
    came: dict[Moves, Moves] = {}
    heap: list[tuple[int, int, Moves]] = [(0, 0, first)]
    count = 0
    while heap:
        cost, _, done = heapq.heappop(heap)
        if done == every:
            return _way(came, first, every)
        if cost > best[done]:
            continue
        if clock() > deadline:
            return None
        left, rest = below - cost, every - done
        # (a part leaves moves that cost 1 or more)
        parts = _parts(sorted(rest), lambda group: spans.passes(group, left - 1)) if left > 2 else iter(())
        for group in chain([rest], parts):
            more = done | group
            limit = min(best.get(more, below), below) - cost
            if spans.passes(group, limit) or not finder.waking.wakes_none(done, group):
                continue
            span = spans.of(group)
            if span is None or span >= limit:
                continue
            best[more], came[more] = cost + span, done
            count += 1
            heapq.heappush(heap, (cost + span, count, more))
    return None


def lowered(finder: LayerFinder, groups: list[Moves], deadline: float) -> list[Moves]:
    """The groups with each run of few moves, whole groups side by side, grouped anew where that lowers the bound."""
    out: list[Moves] = []
    first: Moves = frozenset()
    at = 0
    while at < len(groups):
        end = at + 1
        while end < len(groups) and sum(map(len, groups[at : end + 1])) <= MOST_MOVES:
            end += 1
        run = groups[at:end]
        moves = frozenset().union(*run)
        known = sum(layer.spread for layer in finder.layers_of(run) or []) if len(moves) <= MOST_MOVES else 0
        if known > 1 and clock() < deadline:
            run = least_groups(finder, deadline, known, first, moves) or run
        out += run
        first |= moves
        at = end
    return out


def _way(came: dict[Moves, Moves], first: Moves, end: Moves) -> list[Moves]:
    out: list[Moves] = []
    while end != first:
        out.append(end - came[end])
        end = came[end]
    return out[::-1]
