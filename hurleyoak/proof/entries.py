"""The cases of `first` that have a list of facts of their own: a move enters a set in which nobody was before.

They speak of the crowd before that move, which need not be terminal.
"""
from __future__ import annotations

from dataclasses import dataclass
from typing import Sequence

from .bundles import First
from .ends import STILL
from .facts import HOLDS, Fact, Space, at_least


@dataclass
class Entries:
    """The moves that enter, the facts that the crowds before them have in common, and for each move that it is
    possible."""

    space: Space
    moves: list[int]
    facts: list[Fact]
    cases: list[list[Fact]]


def is_about_inputs(space: Space, fact: Fact) -> bool:
    """Whether a fact speaks of the inputs alone."""
    return fact.kind == HOLDS or all(a < space.inputs for a, _ in fact.terms)


def possible(space: Space, t: int) -> list[Fact]:
    """That two agents are in the states that a move takes."""
    p, q = space.leaf.moves[t][:2]
    if p == q:
        return [at_least([(space.count(p), 1)], -2)]
    return [at_least([(space.count(p), 1)], -1), at_least([(space.count(q), 1)], -1)]


def before(space: Space, states: Sequence[int], facts: Sequence[Fact]) -> list[Fact]:
    """What holds before a set is entered, of the input of a branch with these facts."""
    known = [fact for fact in facts if is_about_inputs(space, fact)]
    return [*space.flow(), *known, *space.untouched(states), *space.unmarked(states)]


def entries_of(space: Space, facts: Sequence[Fact], node: First) -> Entries:
    """The entries of a node whose states are in range."""
    moves = space.entering(node.states)
    still = Space(space.leaf, STILL)
    return Entries(still, moves, before(space, node.states, facts), [possible(space, t) for t in moves])
