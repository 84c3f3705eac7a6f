"""Sets of states that stay: once all agents are in one of them, none ever leaves it (docs/guide/certificates.md)."""
from __future__ import annotations

from dataclasses import dataclass
from enum import Enum
from typing import Container, Sequence

from ..protocol.nets import Leaf, pair
from .bundles import Goal
from .ends import kept, sets_of


class Stay(Enum):
    """Why a set stays."""

    CLOSED = "closed"
    GUARDED = "guarded"
    SETTLED = "settled"


@dataclass(frozen=True)
class SetFault:
    """Where a set fails: `output` at a state, `leaves` at a move that leads out, `wakes` at a move and the one
    woken."""

    number: int
    why: str
    at: int
    other: int = -1

    def words(self) -> str:
        """The program's words."""
        return f"set {self.number} {self.why} {self.at}" + (f" {self.other}" if self.why == "wakes" else "")


def agents_before(leaf: Leaf, t: int, u: int) -> list[int]:
    """The agents that meet in t, and beside them those of u that t doesn't bring."""
    p, q, r, s = leaf.moves[t]
    rest = list(leaf.moves[u][:2])
    for state in (r, s):
        if state in rest:
            rest.remove(state)
    return [p, q, *rest]


def escapes(leaf: Leaf, states: frozenset[int]) -> list[int]:
    """The moves that take two states of a set and put one outside."""
    return [
        t for t in leaf.active if states.issuperset(leaf.moves[t][:2]) and not states.issuperset(leaf.moves[t][2:])
    ]


def first_woken_in(leaf: Leaf, asleep: frozenset[int], states: frozenset[int]) -> tuple[int, int] | None:
    """The least move between two agents of a set that isn't asleep and wakes one that is, and the least that it
    wakes. Of a woken move the agents that the first doesn't bring are in the set."""
    sleepers = kept(leaf, asleep)
    by_pair: dict[tuple[int, int], list[int]] = {}
    for u in sleepers.active:
        by_pair.setdefault(pair(*leaf.moves[u][:2]), []).append(u)
    for t in leaf.active:
        if t in sleepers.active_set or not states.issuperset(leaf.moves[t][:2]):
            continue
        near = {pair(y, b) for y in leaf.moves[t][2:] for b in sleepers.partners[y]}
        woken = [by_pair[key][0] for key in near if _is_woken(leaf, t, by_pair[key][0], by_pair.keys(), states)]
        if woken:
            return t, min(woken)
    return None


def _is_woken(leaf: Leaf, t: int, u: int, pairs: Container[tuple[int, int]], states: frozenset[int]) -> bool:
    """Whether t makes u possible where no move of these pairs was, beside agents of the set."""
    agents = agents_before(leaf, t, u)
    if not states.issuperset(agents[2:]):
        return False
    return not any(pair(p, q) in pairs for i, p in enumerate(agents) for q in agents[i + 1 :])


def _left(leaf: Leaf, listed: frozenset[int], states: frozenset[int], number: int) -> SetFault | None:
    """Why a set isn't guarded: the least move that leads out and is in no layer; or else what wakes one."""
    out = escapes(leaf, states)
    free = [t for t in out if t not in listed]
    if free:
        return SetFault(number, "leaves", free[0])
    woken = first_woken_in(leaf, frozenset(out), states)
    return SetFault(number, "wakes", *woken) if woken else None


def set_fault(leaf: Leaf, value: bool, listed: frozenset[int], states: Sequence[int], number: int) -> SetFault | None:
    """Where a set fails, with the moves that layers list."""
    for q in states:
        if q >= len(leaf.states) or leaf.outputs[q] != value:
            return SetFault(number, "output", q)
    inside = frozenset(states)
    fault = _left(leaf, listed, inside, number)
    return fault if fault and first_woken_in(leaf, listed, inside) else None


def sets_fault(leaf: Leaf, value: bool, goal: Goal) -> SetFault | None:
    """The first set of a goal that fails, and where."""
    for number, states in enumerate(sets_of(leaf, value, goal)):
        fault = set_fault(leaf, value, goal.listed, states, number)
        if fault:
            return fault
    return None


def stay_of(leaf: Leaf, listed: frozenset[int], states: Sequence[int]) -> Stay | None:
    """Why a set stays, if it does."""
    inside = frozenset(states)
    if not escapes(leaf, inside):
        return Stay.CLOSED
    if _left(leaf, listed, inside, 0) is None:
        return Stay.GUARDED
    return Stay.SETTLED if first_woken_in(leaf, listed, inside) is None else None
