"""Layers as they are told: weights by state, each move with the weights before and after it."""
from __future__ import annotations

from dataclasses import dataclass

from ..proof.bundles import Layer
from ..proof.names import Names
from ..protocol.nets import Leaf


@dataclass
class ToldMove:
    """A move of a layer: weights before and after."""

    number: int
    name: str
    before: tuple[int, int]
    after: tuple[int, int]
    silent: bool

    @property
    def lowers(self) -> int:
        """How much it lowers the weights."""
        return sum(self.before) - sum(self.after)


@dataclass
class ToldLayer:
    """A layer: its weights by state, its moves, what each agent pays for it; `raw` where it is malformed."""

    weights: list[tuple[str, int]]
    moves: list[ToldMove]
    bound: int
    is_shaped: bool


def told_layer(names: Names, leaf: Leaf, layer: Layer) -> ToldLayer:
    """A layer as it is told."""
    shaped = len(layer.weights) == len(leaf.states) and all(t < len(leaf.moves) for t in layer.moves)
    weights = [(names.state(q), w) for q, w in enumerate(layer.weights)]
    moves = []
    if shaped:
        for t in layer.moves:
            p, q, r, s = leaf.moves[t]
            w = layer.weights
            moves.append(ToldMove(t, names.move(t), (w[p], w[q]), (w[r], w[s]), t not in leaf.active_set))
    return ToldLayer(weights, moves, layer.spread, shaped)
