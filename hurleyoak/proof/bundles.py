"""Proofs and bundles: the parts of leaves, which fall silent or have goals, and their JSON files
(docs/reference/formats.md)."""
from __future__ import annotations

from dataclasses import dataclass
from functools import cached_property
from typing import Any, Sequence, Union

from ..limits import SET_LIMIT
from ..protocol.nets import FormatFault, Leaf, Net, compact, items, member, net_of
from ..protocol.predicatereader import read_predicate
from ..protocol.predicates import PredicateFault
from .nodes import First as First
from .nodes import Hole as Hole
from .nodes import Layer as Layer
from .nodes import Linear as Linear
from .nodes import Node as Node
from .nodes import Open as Open
from .nodes import Present as Present
from .nodes import Residue as Residue
from .nodes import SIZE_LIMIT as SIZE_LIMIT
from .nodes import Siphon as Siphon
from .nodes import Split as Split
from .nodes import Term as Term
from .nodes import Trap as Trap
from .nodes import Tree as Tree
from .nodes import Twin as Twin
from .nodes import layer_of as layer_of
from .nodes import node_of as node_of
from .nodes import node_value as node_value
from .nodes import set_word as set_word
from .nodes import layer_value, layers_of, set_of, tree_of

GOALS = "goals"


@dataclass(frozen=True)
class Goal:
    """What an input with one value is led to, and kept in: layers of some moves, sets of states, and a tree.

    Without sets there is one, all states with this output.
    """

    layers: tuple[Layer, ...]
    sets: tuple[tuple[int, ...], ...]
    nodes: Tree

    @cached_property
    def listed(self) -> frozenset[int]:
        """The moves of its layers."""
        return frozenset(t for layer in self.layers for t in layer.moves)

    @property
    def bound(self) -> int:
        """How many steps each agent pays at most."""
        return sum(layer.spread for layer in self.layers)


@dataclass(frozen=True)
class LeafProof:
    """The proof of a leaf that falls silent: its predicate's text, layers, and a tree for each value."""

    pred: str
    layers: tuple[Layer, ...]
    true: Tree
    false: Tree

    @property
    def bound(self) -> int:
        """How many steps each agent pays at most."""
        return sum(layer.spread for layer in self.layers)

    @staticmethod
    def goal(value: bool) -> Goal | None:
        """None: it has no goals."""
        return None

    def tree(self, value: bool) -> Tree:
        """The tree that refutes wrong ends where the predicate has this value."""
        return self.true if value else self.false


@dataclass(frozen=True)
class LeafGoals:
    """The proof of a leaf whose agents may change for ever: its predicate's text, and a goal for each value."""

    pred: str
    on_true: Goal
    on_false: Goal

    @property
    def bound(self) -> int:
        """How many steps each agent pays at most."""
        return max(self.on_true.bound, self.on_false.bound)

    def goal(self, value: bool) -> Goal:
        """The goal for this value."""
        return self.on_true if value else self.on_false

    def tree(self, value: bool) -> Tree:
        """The tree of the goal for this value."""
        return self.goal(value).nodes


Part = Union[LeafProof, LeafGoals]


@dataclass(frozen=True)
class Bundle:
    """A net, the predicate's text, and one proof for each leaf."""

    net: Net
    pred: str
    proof: tuple[Part, ...]

    @property
    def has_goals(self) -> bool:
        """Whether some leaf's proof has goals: what is shown then is stable, and need not be silent."""
        return any(isinstance(part, LeafGoals) for part in self.proof)

    def value(self) -> dict[str, Any]:
        """The JSON value of the bundle file."""
        return {"net": self.net.value(), "pred": self.pred, "proof": [proof_value(part) for part in self.proof]}

    def line(self) -> str:
        """The bundle on one line, as the tool writes it."""
        return compact(self.value())


def goal_value(goal: Goal) -> dict[str, Any]:
    """The JSON object of a goal."""
    sets = {"sets": [list(states) for states in goal.sets]} if goal.sets else {}
    return {"layers": list(map(layer_value, goal.layers)), **sets, "nodes": list(map(node_value, goal.nodes))}


def proof_value(part: Part) -> dict[str, Any]:
    """The JSON object of a leaf's proof."""
    if isinstance(part, LeafGoals):
        return {"pred": part.pred, GOALS: [goal_value(part.on_true), goal_value(part.on_false)]}
    return {
        "pred": part.pred,
        "layers": list(map(layer_value, part.layers)),
        "true": list(map(node_value, part.true)),
        "false": list(map(node_value, part.false)),
    }


def _pred(value: Any, path: str, names: Sequence[str]) -> str:
    text = member(value, "pred", path)
    if not isinstance(text, str):
        raise FormatFault(f"{path}/pred", "kind")
    try:
        read_predicate(text, names)
    except PredicateFault as fault:
        raise FormatFault(f"{path}/pred", f"pred {fault.why} {fault.at}") from None
    return text


def goal_of(value: Any, path: str) -> Goal:
    """The goal of a JSON value, or a FormatFault."""
    layers = layers_of(value, path)
    given = items(value["sets"], f"{path}/sets", 0, SET_LIMIT) if "sets" in value else []
    sets = tuple(set_of(states, f"{path}/sets/{j}") for j, states in enumerate(given))
    return Goal(layers, sets, tree_of(value, "nodes", path))


def _part(value: Any, path: str, names: Sequence[str]) -> Part:
    text = _pred(value, path, names)
    if GOALS not in value or "layers" in value:
        layers = layers_of(value, path)
        return LeafProof(text, layers, tree_of(value, "true", path), tree_of(value, "false", path))
    goals = value[GOALS]
    if not isinstance(goals, list) or len(goals) != 2:
        raise FormatFault(f"{path}/{GOALS}", "kind")
    return LeafGoals(text, goal_of(goals[0], f"{path}/{GOALS}/0"), goal_of(goals[1], f"{path}/{GOALS}/1"))


def bundle_of(value: Any) -> Bundle:
    """The bundle of a JSON value, or the FormatFault that the program names first."""
    part = member(value, "net", "")
    try:
        net = net_of(part)
    except FormatFault as fault:
        raise FormatFault("/net" + fault.path, fault.why) from None
    pred = _pred(value, "", net.names)
    count = len(net.leaves)
    given = enumerate(items(member(value, "proof", ""), "/proof", count, count))
    return Bundle(net, pred, tuple(_part(part, f"/proof/{i}", net.names) for i, part in given))


def start_crowd(leaf: Leaf, counts: Sequence[int]) -> list[int]:
    """How many agents each state has at the start, helpers among them."""
    out = list(leaf.helper_counts)
    for q, k in zip(leaf.inputs, counts):
        out[q] += k
    return out
