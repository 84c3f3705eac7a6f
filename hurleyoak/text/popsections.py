"""The sections of a `.pop` file as data: what each line says, before names are looked up."""
from __future__ import annotations

from dataclasses import dataclass, field
from typing import Union

from ..protocol.laws import PLAIN, Law
from ..protocol.nets import STATE_LIMIT
from .scanner import Line, Place

FILE_WORDS = ("format", "variables", "predicate", "combine", "leaf", "assume")
LEAF_WORDS = ("states", "inputs", "helpers", "yes", "no", "computes", "layers", "layer", "when")
GOAL_WORDS = ("layers", "layer", "keeps")  # below `when`, before the nodes
WILDCARD = "*"
# what stands for it in place of a name: no state's name has a blank
ANY = " *"
HOLE = "?"


@dataclass
class Named:
    """A name as it stands in the text, with its place, and a number that belongs to it."""

    name: str
    place: Place
    number: int = 0


@dataclass
class MoveText:
    """`A + B -> a + b`; `*` stands for any state. `again` counts the same move when it is listed more than once.

    With `,` between the states that meet the first is the initiator; `@ 0.3` behind the move is its chance.
    """

    states: tuple[str, str, str, str]
    places: tuple[Place, Place, Place, Place]
    again: int = 1
    law: Law = PLAIN

    @property
    def is_wild(self) -> bool:
        """Whether it stands for a move of each state that fits."""
        return ANY in self.states


@dataclass
class LayerText:
    """A layer: weights by state, or `?` for weights to be found, or JSON; and its moves, `*` for all that no other
    layer lists."""

    place: Place
    weights: list[Named] = field(default_factory=list)
    is_hole: bool = False
    raw: str = ""
    moves: list[Union[MoveText, Named]] = field(default_factory=list)


@dataclass
class GoalText:
    """What stands below `when` before the nodes: layers, and the sets of lines `keeps`."""

    layers: list[LayerText] | None = None
    layers_hole: bool = False
    keeps: list[Line] = field(default_factory=list)

    @property
    def is_there(self) -> bool:
        """Whether any of it is written."""
        return self.layers is not None or self.layers_hole or bool(self.keeps)


@dataclass
class TreeText:
    """The lines of a tree, or `?` for one to be found; behind those of a goal, where it has one."""

    place: Place
    lines: list[Line] = field(default_factory=list)
    is_hole: bool = False
    goal: GoalText = field(default_factory=GoalText)


@dataclass
class LeafText:
    """The lines of one leaf."""

    name: str
    place: Place
    states: list[Named] = field(default_factory=list)
    inputs: list[tuple[Named, Named]] = field(default_factory=list)
    helpers: list[Named] = field(default_factory=list)
    moves: list[MoveText] = field(default_factory=list)
    outputs: list[tuple[bool, list[Named], Place]] = field(default_factory=list)
    computes: tuple[str, Place] | None = None
    layers: list[LayerText] | None = None
    layers_hole: bool = False
    trees: dict[bool, TreeText] = field(default_factory=dict)
    mentions: list[Named] = field(default_factory=list)
    names: set[str] = field(default_factory=set)
    helper_count: int = 0

    def mention(self, named: Named) -> Named:
        """Notes a state, as the states are numbered in the order in which they are first mentioned."""
        if named.name != ANY:
            self.mentions.append(named)
            self.names.add(named.name)
            if len(self.names) > STATE_LIMIT:
                raise named.place.fault(f"a leaf has at most {STATE_LIMIT} states, and this is one more")
        return named


@dataclass
class PopText:
    """A whole file."""

    leaves: list[LeafText] = field(default_factory=list)
    format: tuple[int, Place] | None = None
    variables: list[Named] = field(default_factory=list)
    predicate: tuple[str, Place] | None = None
    combine: tuple[Line, Place] | None = None
    assumed: list[tuple[str, Place]] = field(default_factory=list)
