"""A leaf that was read, with the places of its moves."""
from __future__ import annotations

from dataclasses import dataclass
from functools import cached_property

from ..protocol.nets import Leaf, Move, pair
from .popsections import MoveText
from .scanner import Place


@dataclass
class MadeLeaf:
    """A leaf with the place of each of its moves."""

    leaf: Leaf
    places: list[Place]
    numbers: dict[str, int]

    @cached_property
    def listed(self) -> dict[Move, list[int]]:
        """The numbers of each move."""
        out: dict[Move, list[int]] = {}
        for t, move in enumerate(self.leaf.moves):
            out.setdefault(move, []).append(t)
        return out

    @cached_property
    def alike(self) -> dict[tuple[tuple[int, int], tuple[int, int]], list[int]]:
        """The numbers of each move, whichever state comes first on either side."""
        out: dict[tuple[tuple[int, int], tuple[int, int]], list[int]] = {}
        for t, (p, q, r, s) in enumerate(self.leaf.moves):
            out.setdefault((pair(p, q), pair(r, s)), []).append(t)
        return out


def move_number(made: MadeLeaf, move: MoveText) -> int | None:
    """The number of a move that is named as it is listed, or with the states of either side swapped."""
    states = [made.numbers.get(name) for name in move.states]
    if None in states:
        return None
    p, q, r, s = (state for state in states if state is not None)
    found = made.listed.get((p, q, r, s)) or made.alike.get((pair(p, q), pair(r, s))) or []
    return found[move.again - 1] if 0 < move.again <= len(found) else None
