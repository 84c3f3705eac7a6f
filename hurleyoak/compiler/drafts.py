"""A leaf while it is made: states by name, moves by number, and the agents that stand in every input."""
from __future__ import annotations

from dataclasses import dataclass, field
from typing import Iterable, Sequence

from ..proof.bundles import SIZE_LIMIT, Layer
from ..protocol.nets import Leaf, Move, pair

MULTIPLIER_LIMIT = SIZE_LIMIT


class NotBuilt(Exception):
    """No succinct leaf computes the atom within the limits of the files; the text says why."""


def ones(number: int) -> list[int]:
    """The places of the ones in binary, the greatest first."""
    return [i for i in range(number.bit_length() - 1, -1, -1) if number >> i & 1]


def ends_of(numbers: Iterable[int]) -> list[int]:
    """Each number and what is left of it without its greatest powers of two, but for powers of two; each once."""
    found: dict[int, None] = {}
    for number in numbers:
        while number & (number - 1) and number not in found:
            found[number] = None
            number -= 1 << ones(number)[0]
    return list(found)


def power_name(place: int) -> str:
    """How a power of two is called in the name of a state: `2^5`."""
    return f"2^{place}"


@dataclass
class LeafDraft:
    """States with their outputs and worths, moves with their layers, where variables start, and helpers.

    `spare` is the state of a helper that is there for its number alone.
    """

    states: list[str] = field(default_factory=list)
    outputs: list[bool] = field(default_factory=list)
    worth: list[int] = field(default_factory=list)
    moves: list[Move] = field(default_factory=list)
    layer_of: list[int] = field(default_factory=list)
    inputs: list[int] = field(default_factory=list)
    helpers: list[int] = field(default_factory=list)
    spare: int = 0
    numbers: dict[str, int] = field(default_factory=dict)
    meets: list[set[int]] = field(default_factory=list)

    def state(self, name: str, output: bool, worth: int) -> int:
        """The number of the state with this name, which is new where there is none yet."""
        if name not in self.numbers:
            self.numbers[name] = len(self.states)
            self.states.append(name)
            self.outputs.append(output)
            self.worth.append(worth)
            self.meets.append(set())
        return self.numbers[name]

    def move(self, p: int, q: int, r: int, s: int, layer: int = 0) -> int:
        """The number of the new move p,q -> r,s of this layer. It changes something, and is the only one for its two
        states."""
        assert pair(p, q) != pair(r, s), f"a silent move of {self.states[p]} and {self.states[q]}"
        assert q not in self.meets[p], f"two moves for {self.states[p]} and {self.states[q]}"
        self.meets[p].add(q)
        self.meets[q].add(p)
        self.moves.append((p, q, r, s))
        self.layer_of.append(layer)
        return len(self.moves) - 1

    def moves_where(self, states: Iterable[int], gives: bool) -> list[int]:
        """The moves that put an agent into one of the states, or that take one out of them."""
        wanted = set(states)
        first = 2 if gives else 0
        return [t for t, move in enumerate(self.moves) if move[first] in wanted or move[first + 1] in wanted]

    def pad(self, count: int) -> None:
        """Adds spare helpers, up to this number."""
        self.helpers += [self.spare] * (count - len(self.helpers))

    def layers(self, weights: Sequence[Sequence[int]]) -> tuple[Layer, ...]:
        """The layers, with these weights."""
        return tuple(
            Layer(tuple(t for t, layer in enumerate(self.layer_of) if layer == n), tuple(w))
            for n, w in enumerate(weights)
        )

    def told(self, *groups: Iterable[int]) -> list[list[int]]:
        """For each group of states the weights that count the agents in it."""
        chosen = [set(group) for group in groups]
        return [[int(state in group) for state in range(len(self.states))] for group in chosen]

    def leaf(self) -> Leaf:
        """The leaf as it is now."""
        return Leaf(
            tuple(self.states), tuple(self.moves), tuple(self.inputs), tuple(self.outputs), tuple(self.helpers)
        )
