"""Makes nets of moves by names."""
from __future__ import annotations

from dataclasses import dataclass
from typing import Iterable, Sequence

from hurleyoak.protocol.nets import Leaf, Net, is_silent

NamedMove = tuple[str, str, str, str]


@dataclass(frozen=True)
class Case:
    """One net of a family, with the predicate that it is to compute; `leaves` has the leaves' predicates where there
    are several."""

    family: str
    name: str
    net: Net
    predicate: str
    leaves: tuple[str, ...] = ()


def leaf_of(
    states: Sequence[str],
    moves: Iterable[NamedMove],
    starts: Sequence[str],
    yes: Iterable[str],
    helpers: Sequence[str] = (),
) -> Leaf:
    """A leaf; moves that change nothing are left out, and so is a second move for the same two states."""
    at = {name: q for q, name in enumerate(states)}
    good = set(yes)
    seen: set[frozenset[int]] = set()
    made = []
    for p, q, r, s in moves:
        move = (at[p], at[q], at[r], at[s])
        key = frozenset(move[:2])
        if not is_silent(move) and key not in seen:
            seen.add(key)
            made.append(move)
    return Leaf(
        tuple(states),
        tuple(made),
        tuple(at[s] for s in starts),
        tuple(s in good for s in states),
        tuple(at[h] for h in helpers),
    )


def one(
    family: str,
    name: str,
    predicate: str,
    variables: str,
    states: Sequence[str],
    moves: Iterable[NamedMove],
    starts: Sequence[str],
    yes: Iterable[str],
    helpers: Sequence[str] = (),
) -> Case:
    """A net with one leaf."""
    leaf = leaf_of(states, moves, starts, yes, helpers)
    return Case(family, name, Net(tuple(variables.split()), (leaf,), (0,), 2 if helpers else 1), predicate)


def converts(winner: str, others: Iterable[str], to: str = "") -> list[NamedMove]:
    """The winner takes each of the others to itself, or to a state."""
    return [(winner, other, winner, to or winner) for other in others if other != winner]


def product(family: str, name: str, first: Case, second: Case, word: str) -> Case:
    """Two protocols in one leaf: states are pairs, and each side takes its move where it has one."""
    a, b = first.net.leaves[0], second.net.leaves[0]

    def table(leaf: Leaf) -> dict[tuple[int, int], tuple[int, int]]:
        out: dict[tuple[int, int], tuple[int, int]] = {}
        for t in leaf.active:
            p, q, r, s = leaf.moves[t]
            out.setdefault((p, q), (r, s))
            out.setdefault((q, p), (s, r))
        return out

    one_, two = table(a), table(b)
    pairs = [(i, j) for i in range(len(a.states)) for j in range(len(b.states))]
    label = {pair: f"{a.states[pair[0]]}|{b.states[pair[1]]}" for pair in pairs}
    moves: list[NamedMove] = []
    for x, u in enumerate(pairs):
        for v in pairs[x:]:
            r1, s1 = one_.get((u[0], v[0]), (u[0], v[0]))
            r2, s2 = two.get((u[1], v[1]), (u[1], v[1]))
            moves.append((label[u], label[v], label[r1, r2], label[s1, s2]))
    yes = [
        label[p]
        for p in pairs
        if (a.outputs[p[0]] and b.outputs[p[1]] if word == "&&" else a.outputs[p[0]] or b.outputs[p[1]])
    ]
    starts = [label[p] for p in zip(a.inputs, b.inputs)]
    return one(
        family,
        name,
        f"({first.predicate}) {word} ({second.predicate})",
        " ".join(first.net.names),
        list(label.values()),
        moves,
        starts,
        yes,
    )
