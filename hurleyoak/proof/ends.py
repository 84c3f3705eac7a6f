"""What is dead at an end: all moves of a leaf that falls silent, or those of a goal's layers alone."""
from __future__ import annotations

from dataclasses import replace

from ..protocol.nets import Leaf
from .bundles import Goal

SILENT = (0, 0, 0, 0)  # a move that changes nothing, in the place of one that is left out

STILL = Goal((), (), ())  # nothing is dead: each crowd is an end, also one before a set is entered


def partners_of(leaf: Leaf, goal: Goal | None) -> tuple[frozenset[int], ...]:
    """For each state those that it can't stand beside at an end, itself among them where two of it can't."""
    return leaf.partners if goal is None else kept(leaf, goal.listed).partners


def kept(leaf: Leaf, moves: frozenset[int]) -> Leaf:
    """The leaf in which these moves alone change something, with their numbers."""
    return replace(leaf, moves=tuple(m if t in moves else SILENT for t, m in enumerate(leaf.moves)), laws=())


def states_with(leaf: Leaf, value: bool) -> tuple[int, ...]:
    """All states with this output."""
    return tuple(q for q, output in enumerate(leaf.outputs) if output == value)


def sets_of(leaf: Leaf, value: bool, goal: Goal) -> tuple[tuple[int, ...], ...]:
    """The goal's sets; where it has none, all states with this output."""
    return goal.sets or (states_with(leaf, value),)
