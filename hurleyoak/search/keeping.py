"""Sets of right states that stay, with the moves of some layers: as great as chance finds them."""
from __future__ import annotations

import random

from ..limits import SET_LIMIT
from ..proof.staying import Stay, stay_of
from ..protocol.nets import Leaf
from .limits import clock
from .waking import Moves

TRIES = 60
MOST = min(8, SET_LIMIT)
SECONDS = 2.0


def _stays(leaf: Leaf, moves: Moves, states: set[int]) -> bool:
    return stay_of(leaf, moves, sorted(states)) in (Stay.CLOSED, Stay.GUARDED)


def _leaving(leaf: Leaf, moves: Moves, states: set[int]) -> list[int]:
    """The moves that lead out of a set and aren't in the layers."""
    return [
        t
        for t in leaf.active
        if t not in moves and states.issuperset(leaf.moves[t][:2]) and not states.issuperset(leaf.moves[t][2:])
    ]


def _one(leaf: Leaf, moves: Moves, right: frozenset[int], rng: random.Random) -> tuple[int, ...]:
    """A set that stays: states go until it does, and come back as long as it does."""
    states = set(right)
    while states and not _stays(leaf, moves, states):
        bad = _leaving(leaf, moves, states)
        gone = rng.choice(leaf.moves[rng.choice(bad)][:2]) if bad else rng.choice(sorted(states))
        states.discard(gone)
    for q in rng.sample(sorted(right - states), len(right - states)):
        if _stays(leaf, moves, states | {q}):
            states.add(q)
    return tuple(sorted(states))


def kept_sets(
    leaf: Leaf, moves: Moves, right: frozenset[int], rng: random.Random, deadline: float
) -> list[tuple[int, ...]]:
    """The greatest of the sets that were found, none within another."""
    end = min(deadline, clock() + SECONDS)
    found: set[tuple[int, ...]] = set()
    for _ in range(TRIES):
        if clock() > end:
            break
        found.add(_one(leaf, moves, right, rng))
    great = sorted((one for one in found if one), key=lambda one: (-len(one), one))
    return [one for i, one in enumerate(great) if not any(set(one) < set(other) for other in great[:i])][:MOST]
