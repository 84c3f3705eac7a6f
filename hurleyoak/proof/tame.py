"""Whether the layers of a leaf are tame: then random meetings settle a crowd in at most cubic time, as a theorem of the
program's says. This is the workbench's own test, for reasons and for hints; that they are tame the program says."""
from __future__ import annotations

from dataclasses import dataclass
from enum import Enum
from typing import Iterator, Sequence

from ..protocol.nets import Leaf, Move, pair
from .bundles import Bundle, LeafProof
from .nodes import Layer

WORK_LIMIT = 3_000_000  # pairs of moves that are looked at, raising ones times those that they may stand beside

Pair = tuple[int, int]


class Way(Enum):
    """How a later move works against a layer."""

    WAKES = "wakes"
    RAISES = "raises"
    STANDS = "stands"


@dataclass(frozen=True)
class Fight:
    """A move of a layer, and a later one that works against it.

    It enables it while no move up to its layer is enabled. Or it raises the layer's weights beside it. Or it takes the
    same states and doesn't lower them.
    """

    way: Way
    layer: int
    own: int
    later: int


class TooMuch(Exception):
    """The test would take too long here."""


def gain(weights: Sequence[int], move: Move) -> int:
    """By how much a move raises the weights."""
    p, q, r, s = move
    return weights[r] + weights[s] - weights[p] - weights[q]


class Pairs:
    """For each two states the first layer with a move that takes them, and the layer of each move."""

    def __init__(self, leaf: Leaf, layers: Sequence[Layer]) -> None:
        self.leaf, self.layers, self.count = leaf, layers, len(layers)
        active = leaf.active_set
        self.layer_of = {t: i for i, layer in enumerate(layers) for t in layer.moves if t in active}
        self.first: dict[Pair, int] = {}
        for t, i in self.layer_of.items():
            key = pair(*leaf.moves[t][:2])
            self.first[key] = min(self.first.get(key, i), i)

    def is_early(self, p: int, q: int, layer: int) -> bool:
        """Whether a move of a layer before this one takes the two states."""
        return self.first.get(pair(p, q), self.count) < layer

    def beside(self, u: Move, layer: int) -> set[int]:
        """The states beside one of which, another than its own, an agent that u takes has an early move."""
        partners = self.leaf.partners
        return {y for x in u[:2] for y in partners[x] if x != y and self.is_early(x, y, layer)}

    def own(self, layer: int) -> list[int]:
        """The moves of a layer that aren't silent."""
        return [t for t in self.layers[layer].moves if self.layer_of.get(t) == layer]


def _waking(pairs: Pairs) -> Iterator[Fight]:
    moves, partners = pairs.leaf.moves, pairs.leaf.partners
    for t, i in sorted((t, i) for t, i in pairs.layer_of.items() if i):
        p, q, r, s = moves[t]
        for m, other in {(r, s), (s, r)}:
            for o in sorted(partners[m]):
                j = pairs.first.get(pair(m, o), pairs.count)
                if j >= i or pairs.is_early(p, q, j + 1):
                    continue
                if o != other and (pairs.is_early(p, o, j + 1) or pairs.is_early(q, o, j + 1)):
                    continue
                woken = next(u for u in pairs.own(j) if pair(*moves[u][:2]) == pair(m, o))
                yield Fight(Way.WAKES, j, woken, t)


def _raising(pairs: Pairs) -> Iterator[Fight]:
    moves, left = pairs.leaf.moves, WORK_LIMIT
    for i, layer in enumerate(pairs.layers):
        own = [v for v in pairs.own(i) if not pairs.is_early(*moves[v][:2], i)]
        later = (u for u, j in sorted(pairs.layer_of.items()) if j > i and not pairs.is_early(*moves[u][:2], i))
        raising = [u for u in later if gain(layer.weights, moves[u]) > 0]
        left -= len(own) * len(raising)
        if left < 0:
            raise TooMuch
        for u in raising:
            beside = pairs.beside(moves[u], i)
            yield from (Fight(Way.RAISES, i, v, u) for v in own if beside.isdisjoint(moves[v][:2]))


def _standing(pairs: Pairs) -> Iterator[Fight]:
    moves = pairs.leaf.moves
    for u, j in sorted(pairs.layer_of.items()):
        key = pair(*moves[u][:2])
        i = pairs.first[key]
        if i < j and gain(pairs.layers[i].weights, moves[u]) >= 0:
            yield Fight(Way.STANDS, i, next(v for v in pairs.own(i) if pair(*moves[v][:2]) == key), u)


def fights(leaf: Leaf, layers: Sequence[Layer]) -> Iterator[Fight]:
    """Each two moves by which valid layers aren't tame: none where they are. TooMuch where it would take too long."""
    pairs = Pairs(leaf, layers)
    yield from _raising(pairs)
    yield from _waking(pairs)
    yield from _standing(pairs)


def first_fight(leaf: Leaf, layers: Sequence[Layer]) -> Fight | None:
    """Two moves by which valid layers aren't tame, if there are two; TooMuch where it would take too long."""
    return next(fights(leaf, layers), None)


def is_tame(leaf: Leaf, layers: Sequence[Layer]) -> bool:
    """Whether layers are tame, if they are valid, and the test doesn't take too long here."""
    if any(len(layer.weights) != len(leaf.states) for layer in layers):
        return False
    try:
        return first_fight(leaf, layers) is None
    except TooMuch:
        return False


def is_tame_bundle(bundle: Bundle) -> bool:
    """Whether the layers of each leaf are."""
    return all(
        isinstance(part, LeafProof) and is_tame(leaf, part.layers)
        for leaf, part in zip(bundle.net.leaves, bundle.proof)
    )
