"""Layers and the nodes of trees, and their JSON values (docs/reference/formats.md).

A tree is the list of its nodes in preorder; what each node means stands in docs/guide/certificates.md.
"""
from __future__ import annotations

from dataclasses import dataclass
from typing import Any, Union

from ..limits import INDEX_COUNT, LAYER_LIMIT, NODE_LIMIT, STATE_INDEX_COUNT, TERM_LIMIT
from ..limits import MODULUS_LIMIT as GREATEST_MODULUS
from ..limits import MOVE_LIMIT as LISTED_LIMIT
from ..limits import SIZE_LIMIT as SIZE_LIMIT
from ..limits import STATE_LIMIT as LISTED_STATES
from ..limits import STATE_LIMIT as WEIGHT_LIMIT
from ..protocol.nets import FormatFault, items, member, whole
from ..protocol.predicates import LEAST_MODULUS

NUMBER_LIMIT = INDEX_COUNT - 1
STATE_NUMBER_LIMIT = STATE_INDEX_COUNT - 1

Term = tuple[int, int]


@dataclass(frozen=True)
class Linear:
    """Ends a branch: the sum of the facts times their multipliers cannot be at least 0. Terms are (fact,
    multiplier)."""

    terms: tuple[Term, ...]


@dataclass(frozen=True)
class Residue:
    """Ends a branch modulo a number. Terms are (fact, multiplier)."""

    modulus: int
    terms: tuple[Term, ...]


@dataclass(frozen=True)
class Split:
    """A sum is above 0, is 0, or is below. Terms are (variable, coefficient), ascending."""

    terms: tuple[Term, ...]
    constant: int


@dataclass(frozen=True)
class Present:
    """A state is absent at the end, or there alone with what it doesn't react with."""

    state: int


@dataclass(frozen=True)
class Twin:
    """A state that can meet itself stands at most once at the end."""

    state: int


@dataclass(frozen=True)
class Trap:
    """A set of states that keeps an agent unless a move leaves it."""

    states: tuple[int, ...]


@dataclass(frozen=True)
class Siphon:
    """A set of states that stays empty unless a move enters it or an agent starts in it."""

    states: tuple[int, ...]


@dataclass(frozen=True)
class Open:
    """Opens a fact that says what value a predicate has."""

    fact: int


@dataclass(frozen=True)
class First:
    """A move enters a set of states in which nobody was before; or somebody started in it; or nobody ever was there."""

    states: tuple[int, ...]


@dataclass(frozen=True)
class Hole:
    """A part that is to be found; `kind` is `tree`, or `lin` or `residue` with its modulus. No file of a bundle has
    one."""

    kind: str = "tree"
    modulus: int = 0


Node = Union[Linear, Residue, Split, Present, Twin, Trap, Siphon, Open, First]
Tree = tuple[Node, ...]


@dataclass(frozen=True)
class Layer:
    """Moves of one layer, by number, and one weight for each state."""

    moves: tuple[int, ...]
    weights: tuple[int, ...]

    @property
    def spread(self) -> int:
        """The greatest weight less the least: how many steps each agent pays for this layer."""
        return max(self.weights) - min(self.weights) if self.weights else 0


_SET_WORDS: dict[type[Trap] | type[Siphon] | type[First], str] = {Trap: "trap", Siphon: "siphon", First: "first"}


def set_word(node: Trap | Siphon | First) -> str:
    """The word of a node that names a set."""
    return _SET_WORDS[type(node)]


def node_value(node: Node) -> list[Any]:
    """The JSON list of a node."""
    if isinstance(node, Linear):
        return ["lin", [list(t) for t in node.terms]]
    if isinstance(node, Residue):
        return ["residue", node.modulus, [list(t) for t in node.terms]]
    if isinstance(node, Split):
        return ["split", [list(t) for t in node.terms], node.constant]
    if isinstance(node, (Trap, Siphon, First)):
        return [set_word(node), list(node.states)]
    if isinstance(node, Open):
        return ["open", node.fact]
    return ["present" if isinstance(node, Present) else "twin", node.state]


def layer_value(layer: Layer) -> dict[str, Any]:
    """The JSON object of a layer."""
    return {"moves": list(layer.moves), "weights": list(layer.weights)}


def _terms(value: Any, path: str, ascending: bool) -> tuple[Term, ...]:
    out: list[Term] = []
    for i, term in enumerate(items(value, path, 0, TERM_LIMIT)):
        at = f"{path}/{i}"
        if not isinstance(term, list) or len(term) != 2:
            raise FormatFault(at, "kind")
        number = whole(term[0], f"{at}/0", 0, NUMBER_LIMIT)
        if ascending and out and number <= out[-1][0]:
            raise FormatFault(f"{at}/0", "range")
        out.append((number, whole(term[1], f"{at}/1", -SIZE_LIMIT, SIZE_LIMIT)))
    return tuple(out)


def set_of(value: Any, path: str) -> tuple[int, ...]:
    """The ascending states of a JSON value, or a FormatFault."""
    out: list[int] = []
    for i, state in enumerate(items(value, path, 0, LISTED_STATES)):
        number = whole(state, f"{path}/{i}", 0, STATE_NUMBER_LIMIT)
        if out and number <= out[-1]:
            raise FormatFault(f"{path}/{i}", "range")
        out.append(number)
    return tuple(out)


_OF_SETS: dict[str, type[Trap] | type[Siphon] | type[First]] = {word: kind for kind, word in _SET_WORDS.items()}
_ITEMS = {"lin": 2, "residue": 3, "split": 3, "present": 2, "twin": 2, "trap": 2, "siphon": 2, "open": 2, "first": 2}


def node_of(value: Any, path: str) -> Node:
    """The node of a JSON value, or a FormatFault."""
    if not isinstance(value, list) or not value:
        raise FormatFault(path, "kind")
    word = value[0]
    if not isinstance(word, str):
        raise FormatFault(f"{path}/0", "kind")
    if word not in _ITEMS:
        raise FormatFault(f"{path}/0", "name")
    if len(value) != _ITEMS[word]:
        raise FormatFault(path, "kind")
    if word == "lin":
        return Linear(_terms(value[1], f"{path}/1", False))
    if word == "residue":
        return Residue(
            whole(value[1], f"{path}/1", LEAST_MODULUS, GREATEST_MODULUS), _terms(value[2], f"{path}/2", False)
        )
    if word == "split":
        return Split(_terms(value[1], f"{path}/1", True), whole(value[2], f"{path}/2", -SIZE_LIMIT, SIZE_LIMIT))
    if word in _OF_SETS:
        return _OF_SETS[word](set_of(value[1], f"{path}/1"))
    if word == "open":
        return Open(whole(value[1], f"{path}/1", 0, NUMBER_LIMIT))
    state = whole(value[1], f"{path}/1", 0, STATE_NUMBER_LIMIT)
    return Present(state) if word == "present" else Twin(state)


def layer_of(value: Any, path: str) -> Layer:
    """The layer of a JSON value, or a FormatFault."""
    moves = items(member(value, "moves", path), f"{path}/moves", 0, LISTED_LIMIT)
    listed = tuple(whole(t, f"{path}/moves/{i}", 0, NUMBER_LIMIT) for i, t in enumerate(moves))
    weights = items(member(value, "weights", path), f"{path}/weights", 0, WEIGHT_LIMIT)
    return Layer(
        listed, tuple(whole(w, f"{path}/weights/{i}", -SIZE_LIMIT, SIZE_LIMIT) for i, w in enumerate(weights))
    )


def layers_of(value: Any, path: str) -> tuple[Layer, ...]:
    """The member `layers` of an object, or a FormatFault."""
    layers = items(member(value, "layers", path), f"{path}/layers", 0, LAYER_LIMIT)
    return tuple(layer_of(layer, f"{path}/layers/{j}") for j, layer in enumerate(layers))


def tree_of(value: Any, name: str, path: str) -> Tree:
    """The member of an object that is a tree, or a FormatFault."""
    nodes = items(member(value, name, path), f"{path}/{name}", 0, NODE_LIMIT)
    return tuple(node_of(n, f"{path}/{name}/{i}") for i, n in enumerate(nodes))
