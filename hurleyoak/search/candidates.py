"""From a candidate for a wrong end to a flaw: by an order of its own moves, in its leaf and then in the whole net."""
from __future__ import annotations

from typing import Sequence

from ..protocol.nets import Leaf, Net
from ..protocol.predicates import Predicate, value_at
from .explore import first_moves, steps
from .flaws import WRONG, Crowd, Flaw
from .limits import clock
from .ordering import Order, ordered
from .whole import System, Words, shown_leaf, system_of, words_of
from ..proof.bundles import start_crowd

FINISHING = 100_000  # meetings at most that bring the other leaves to an end


def taken_of(leaf: Leaf, point: Sequence[int]) -> dict[int, int]:
    """How often a candidate takes each move that changes something; its numbers are those of inputs, states and
    moves."""
    first = len(leaf.inputs) + len(leaf.states)
    return {t: point[first + t] for t in leaf.active if point[first + t]}


def candidate_order(leaf: Leaf, point: Sequence[int], seconds: float) -> Order:
    """An order of a candidate's own moves, or none."""
    return ordered(leaf, tuple(point[: len(leaf.inputs)]), taken_of(leaf, point), clock() + seconds)


def wrong_by(
    system: System, tree: Predicate, counts: tuple[int, ...], end: Crowd, moves: list[int], size: int
) -> Flaw | None:
    """The flaw that these moves lead to, where their end is terminal and wrong."""
    want = value_at(tree, counts)
    if (
        not any(k and system.outputs[q] != want for q, k in enumerate(end))
        or next(iter(steps(system, end)), None) is not None
    ):
        return None
    hidden = sorted(set(moves) - first_moves(system))
    return Flaw(
        kind=WRONG,
        counts=counts,
        crowd=end,
        moves=moves,
        by_meetings=not hidden,
        size=size,
        leaf=shown_leaf(system),
        words=words_of(system),
        hidden=hidden,
    )


def flaw_by(leaf: Leaf, tree: Predicate, counts: tuple[int, ...], order: Order) -> Flaw | None:
    """The flaw of a leaf for its own predicate to which an order leads."""
    crowd = start_crowd(leaf, counts)
    for t in order.moves:
        for q, k in zip(leaf.moves[t], (-1, -1, 1, 1)):
            crowd[q] += k
    return wrong_by(leaf, tree, counts, tuple(crowd), order.moves, order.crowds)


def net_flaw_by(net: Net, whole: Predicate, at: int, flaw: Flaw) -> Flaw | None:
    """The flaw of the whole net to which a leaf's way leads: the other leaves move along, and come to an end after
    it."""
    system = system_of(net)
    if not isinstance(system, Words):
        return wrong_by(system, whole, flaw.counts, flaw.crowd, flaw.moves, flaw.size)
    leaf = net.leaves[at]
    crowd = system.start(flaw.counts)
    moves: list[int] = []
    for t in flaw.moves:
        taken = _meeting(system, crowd, at, leaf.moves[t])
        if taken is None:
            return None
        moves.append(taken[0])
        crowd = taken[1]
    while (step := next((one for one in steps(system, crowd) if one[0] in system.meetings), None)) is not None:
        if len(moves) >= FINISHING:
            return None
        moves.append(step[0])
        crowd = step[1]
    return wrong_by(system, whole, flaw.counts, crowd, moves, flaw.size)


def _meeting(system: Words, crowd: Crowd, at: int, move: tuple[int, int, int, int]) -> tuple[int, Crowd] | None:
    """A meeting in which a leaf takes a move, with the crowd behind it."""
    p, q, r, s = move
    for t, new in steps(system, crowd):
        if t in system.meetings:
            a, b, c, d = (system.words[word][at] for word in system.moves[t])
            if (a, b, c, d) in ((p, q, r, s), (q, p, s, r)):
                return t, new
    return None
