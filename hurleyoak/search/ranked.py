"""Layers of some moves of a leaf: the greatest ones that no other move wakes, or those of moves that are chosen."""
from __future__ import annotations

import random
from typing import Callable, Iterable, Iterator, Sequence

from ..proof.bundles import Layer
from ..proof.ends import kept
from ..protocol.nets import Leaf
from .layers import LayerFinder
from .limits import clock
from .smt import layers_by_smt
from .waking import Moves

Price = Callable[[int], float]

PEEL_SECONDS, SMT_SECONDS = 20.0, 4.0
INSERT_SECONDS = 10.0


def listed(groups: Iterable[Moves]) -> Moves:
    """All moves of the groups."""
    return frozenset[int]().union(*groups)


def greatest(leaf: Leaf, deadline: float) -> list[Moves]:
    """The greatest groups that no other move of the leaf wakes: those that peeling finds, and more by SMT."""
    if not leaf.active:
        return []
    finder = LayerFinder(leaf, min(deadline, clock() + PEEL_SECONDS))
    peeled = finder.some_groups(None)
    _, groups = layers_by_smt(finder, min(deadline, clock() + SMT_SECONDS), peeled)
    return finder.merged(groups if finder.is_valid(groups) else peeled)


def of_moves(leaf: Leaf, moves: Moves, deadline: float) -> list[Moves] | None:
    """Groups of all these moves, whatever the others wake; None where none are found."""
    finder = LayerFinder(kept(leaf, moves), deadline)
    groups = finder.groups(None) if finder.leaf.active else []
    return None if groups is None else finder.merged(groups)


def dropped(leaf: Leaf, moves: Iterable[int], rng: random.Random, price: Price, deadline: float) -> list[Moves]:
    """Groups of some of these moves: where peeling is stuck, the dearest move of a conflict goes."""
    left = set(moves)
    while left and clock() < deadline:
        finder = LayerFinder(kept(leaf, frozenset(left)), deadline)
        groups = finder.some_groups(None)
        done = listed(groups)
        if done >= left:
            return finder.merged(groups)
        stuck = finder.conflict() or sorted(left - done)
        most = max(map(price, stuck))
        left.discard(rng.choice([t for t in stuck if price(t) == most]))
    return []


def inserted(leaf: Leaf, order: Sequence[int], deadline: float) -> list[Moves]:
    """Groups of as many moves as keep some, one inserted after the other."""
    end = min(deadline, clock() + INSERT_SECONDS)
    chosen: Moves = frozenset()
    best: list[Moves] = []
    for t in order:
        if clock() > end:
            break
        groups = of_moves(leaf, chosen | {t}, end)
        if groups is not None:
            chosen, best = chosen | {t}, groups
    return best


def layers_of(leaf: Leaf, groups: Sequence[Moves], deadline: float) -> tuple[Layer, ...] | None:
    """The groups with whole weights."""
    if not groups:
        return ()
    layers = LayerFinder(kept(leaf, listed(groups)), deadline).layers_of(groups)
    return None if layers is None else tuple(layers)


def orders(leaf: Leaf, price: Price, missing: dict[int, int], rng: random.Random) -> Iterator[list[int]]:
    """Orders in which moves are inserted: as they stand, then those first that candidates for ends lack, then the
    cheap ones."""
    yield list(leaf.active)
    while True:
        yield sorted(leaf.active, key=lambda t: (-missing.get(t, 0), rng.random()))
        yield sorted(leaf.active, key=lambda t: (price(t), rng.random()))
        yield sorted((t for t in leaf.active if price(t) <= 0), key=lambda t: (price(t), rng.random()))
