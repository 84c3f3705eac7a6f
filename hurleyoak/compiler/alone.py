"""The flock a(1)*x(1) + .. >= c without helpers, for coefficients that are 0, powers of two, or at least c.

Two that are worth the same power of two join. An agent that has the greatest power in c collects the other powers of
c, the greatest first: it is a prefix. Two agents that are worth c or more together become two full ones, and a full
one turns all others.
"""
from __future__ import annotations

from dataclasses import dataclass

from ..proof.bundles import Layer, LeafProof, Node
from .branch import VALUE, Branch, Says, Sum, flows, said_of
from .drafts import MULTIPLIER_LIMIT, LeafDraft, NotBuilt, ones, power_name
from .flocks import OneSign, missed


@dataclass(frozen=True)
class Alone:
    """The leaf; `prefixes` are the states that have the greatest powers of c, but not all."""

    draft: LeafDraft
    atom: OneSign
    full: int
    zero: int
    powers: tuple[int, ...]
    prefixes: tuple[int, ...]


def stands_alone(atom: OneSign) -> bool:
    """Whether the leaf without helpers computes the atom."""
    return all(a == 0 or a >= atom.least or a & (a - 1) == 0 for a in atom.weights)


def alone_leaf(atom: OneSign) -> Alone:
    """The leaf; NotBuilt where c is above the greatest multiplier."""
    if atom.least > MULTIPLIER_LIMIT:
        raise NotBuilt(f"the least sum {atom.least} is above {MULTIPLIER_LIMIT}, the greatest multiplier of a proof")
    draft = LeafDraft()
    places = ones(atom.least)
    zero = draft.state("0", not atom.reached, 0)
    powers = tuple(draft.state(power_name(i), not atom.reached, 1 << i) for i in range(places[0]))
    parts = [sum(1 << i for i in places[:j]) for j in range(1, len(places))]
    prefixes = tuple(draft.state(str(v), not atom.reached, v) for v in parts)
    full = draft.state("full", atom.reached, atom.least)
    found = {v: s for s, v in enumerate(draft.worth) if s != full}
    draft.inputs = [full if a >= atom.least else found[a] for a in atom.weights]
    _joins(draft, found, full, powers, prefixes, places)
    for state in range(len(draft.states)):
        if state != full:
            draft.move(full, state, full, full)
    draft.spare = zero
    return Alone(draft, atom, full, zero, powers, prefixes)


def _joins(
    draft: LeafDraft,
    found: dict[int, int],
    full: int,
    powers: tuple[int, ...],
    prefixes: tuple[int, ...],
    places: list[int],
) -> None:
    """The moves of two that join, or that fill up together."""

    def meet(p: int, q: int) -> None:
        total = draft.worth[p] + draft.worth[q]
        if total >= draft.worth[full]:
            draft.move(p, q, full, full)
        elif total in found:
            draft.move(p, q, found[total], found[0])

    for state in powers:
        meet(state, state)
    for j, prefix in enumerate(prefixes):
        for place in range(places[j + 1], len(powers)):
            meet(prefix, powers[place])
        for other in prefixes[j:]:
            meet(prefix, other)


def _layer(alone: Alone) -> Layer:
    draft = alone.draft
    weights = [1 if s == alone.zero else 0 if s == alone.full else 2 for s in range(len(draft.states))]
    return Layer(tuple(range(len(draft.moves))), tuple(weights))


def _sum_with(alone: Alone, branch: Branch, there: int | None) -> Node:
    """With this prefix, or with none: the sum at the end is below c."""
    draft = alone.draft
    great = max(alone.atom.least, *alone.atom.weights)
    terms: Sum = flows({s: -v for s, v in enumerate(draft.worth)})
    terms |= {VALUE: 1, (Says.FLOW, alone.full): -great, (Says.ABSENT, alone.full): -great}
    met = draft.meets[there] if there is not None else set()
    terms |= said_of(Says.ABSENT, {s: -draft.worth[s] for s in alone.powers if s in met})
    terms |= said_of(Says.SINGLE, {s: draft.worth[s] for s in alone.powers if s not in met})
    for s in alone.prefixes:
        terms[Says.ALONE if s == there else Says.ABSENT, s] = -draft.worth[s]
    return branch.lin(terms)


def _reached(alone: Alone, value: bool) -> list[Node]:
    """The tree where the sum is reached: each prefix in turn is there, or none."""
    opened, root = Branch.root(alone.draft).opened()
    look, branch, here = root.present(alone.full)
    nodes = [opened, look]
    for state in alone.powers:
        twin, branch = branch.twin(state)
        nodes.append(twin)
    ends: list[Node] = []
    for prefix in alone.prefixes:
        node, branch, with_prefix = branch.present(prefix)
        nodes.append(node)
        ends.insert(0, _sum_with(alone, with_prefix, prefix))
    return [*nodes, _sum_with(alone, branch, None), *ends, here.wrong_is_absent(value)]


def alone_proof(alone: Alone, text: str) -> LeafProof:
    """One layer, and a tree for each value."""
    atom = alone.atom

    def tree(value: bool) -> tuple[Node, ...]:
        if value == atom.reached:
            return tuple(_reached(alone, value))
        return tuple(missed(alone.draft, alone.full, atom.least, atom.least, value))

    return LeafProof(text, (_layer(alone),), tree(True), tree(False))
