"""From the sections of a `.pop` file to proofs: layers and trees by names, with what is left open."""
from __future__ import annotations

from dataclasses import dataclass, field
from typing import Sequence, Union

from .jsontext import read_json
from ..proof.names import Names
from .madeleaf import MadeLeaf, move_number
from ..protocol.nets import FormatFault
from .popsections import HOLE, GoalText, LayerText, LeafText, MoveText, Named, TreeText
from ..limits import SET_LIMIT
from ..protocol.predicates import Predicate
from ..proof.bundles import Goal, Hole, Layer, LeafGoals, LeafProof, Node, Part, layer_of
from .factnames import LeafReader, Unknown
from .scanner import Place
from .treereader import DraftNode, Note, TreeReader


Layered = Union[LeafText, GoalText]


@dataclass
class LayerDraft:
    """A layer whose weights may be open."""

    moves: tuple[int, ...]
    weights: tuple[int, ...] | None


@dataclass
class GoalDraft:
    """A goal in which parts may be open: `layers` None where all of them are. Its nodes are those of the draft."""

    layers: list[LayerDraft] | None = None
    sets: tuple[tuple[int, ...], ...] = ()

    def for_tree(self, states: int) -> Goal:
        """The goal as a tree asks for it, which looks at the moves of layers alone."""
        layers = [Layer(layer.moves, layer.weights or (0,) * states) for layer in self.layers or []]
        return Goal(tuple(layers), self.sets, ())


@dataclass
class ProofDraft:
    """A leaf's proof in which parts may be open: `layers` None where all of them are, a tree None where all of it
    is. With `goals` it has none but theirs; a goal that isn't there is to be found."""

    layers: list[LayerDraft] | None = None
    true: list[DraftNode] | None = None
    false: list[DraftNode] | None = None
    goals: dict[bool, GoalDraft] | None = None
    notes: list[Note] = field(default_factory=list)
    holes: list[Place] = field(default_factory=list)
    is_given: bool = False
    node_lines: dict[bool, list[int]] = field(default_factory=dict)

    def lines(self, value: bool) -> list[int]:
        """The line of each node of the tree for a value, as far as it is written."""
        return self.node_lines.get(value, [])

    def tree(self, value: bool) -> list[DraftNode] | None:
        """The tree for a value."""
        return self.true if value else self.false

    def goal(self, value: bool) -> GoalDraft | None:
        """The goal for a value, where it is written."""
        return (self.goals or {}).get(value)

    def put(self, value: bool, nodes: list[DraftNode] | None) -> None:
        """The nodes of the tree for a value."""
        if value:
            self.true = nodes
        else:
            self.false = nodes


def _layer(text: LayerText, made: MadeLeaf, others: Sequence[LayerText], notes: list[Note]) -> LayerDraft:
    if text.raw:
        try:
            layer = layer_of(read_json(text.raw), "")
        except (FormatFault, ValueError):
            raise text.place.fault("expected a layer in JSON, with `moves` and `weights`") from None
        return LayerDraft(layer.moves, layer.weights)
    weights = [0] * len(made.leaf.states)
    for state in text.weights:
        if state.name in made.numbers:
            weights[made.numbers[state.name]] = state.number
        else:
            notes.append(Note(state.place, f"`{state.name}` is no state of this leaf"))
    moves: list[int] = []
    for listed in text.moves:
        if isinstance(listed, MoveText):
            number = move_number(made, listed)
            if number is None:
                a, b, c, d = listed.states
                notes.append(Note(listed.places[0], f"`{a} + {b} -> {c} + {d}` is no move of this leaf"))
            else:
                moves.append(number)
    if any(isinstance(listed, Named) for listed in text.moves):
        taken = {move_number(made, m) for layer in others for m in layer.moves if isinstance(m, MoveText)}
        moves += [t for t in made.leaf.active if t not in taken]
    return LayerDraft(tuple(moves), None if text.is_hole else tuple(weights))


def _layers(given: Layered, made: MadeLeaf, draft: ProofDraft, place: Place) -> list[LayerDraft] | None:
    """Layers as far as they are written, with what is open in them."""
    if given.layers is None:
        draft.holes.append(place)
        return None
    draft.holes += [layer.place for layer in given.layers if layer.is_hole]
    return [_layer(layer, made, given.layers, draft.notes) for layer in given.layers]


def _goal(part: TreeText, made: MadeLeaf, names: Names, draft: ProofDraft) -> GoalDraft:
    """What stands below `when` before the nodes; TextFault where nodes rest on layers that are open."""
    goal = GoalDraft(_layers(part.goal, made, draft, part.place))
    if goal.layers is None and part.lines and not part.lines[0].looking_at(HOLE):
        raise part.place.fault(
            "the nodes of a goal rest on its layers: write them, `layers none`, or `?` for the tree"
        )
    reader = LeafReader(made, names)
    sets = []
    for line in part.goal.keeps:
        try:
            sets.append(reader.states(line))
        except Unknown as unknown:
            raise unknown.place.fault(unknown.told) from None
        line.must_end()
    if len(sets) > SET_LIMIT:
        raise part.goal.keeps[SET_LIMIT].start().fault(f"a goal has at most {SET_LIMIT} sets")
    goal.sets = tuple(sets)
    return goal


def _goals(text: LeafText, made: MadeLeaf, names: Names, draft: ProofDraft) -> dict[bool, GoalDraft] | None:
    """The goals of a leaf, None where it has none; TextFault where it has goals and layers of its own, or one alone."""
    if not any(part.goal.is_there for part in text.trees.values()):
        return None
    if text.layers is not None or text.layers_hole:
        place = text.layers[0].place if text.layers else text.place
        raise place.fault("layers stand above the trees, or below each `when`, and here they stand in both places")
    goals = {}
    for value, part in text.trees.items():
        if part.is_hole:
            continue
        if not part.goal.is_there:
            raise part.place.fault(
                "the other value has layers of its own, so this one has too: `layers none` below it if it needs none"
            )
        goals[value] = _goal(part, made, names, draft)
    return goals


def read_proof(text: LeafText, made: MadeLeaf, names: Names, tree: Predicate) -> ProofDraft:
    """The proof of a leaf, with notes of what stands for nothing; TextFault where it is malformed."""
    draft = ProofDraft()
    draft.is_given = text.layers is not None or text.layers_hole or bool(text.trees)
    draft.goals = _goals(text, made, names, draft)
    if draft.goals is None:
        draft.layers = _layers(text, made, draft, text.place)
    for value in (True, False):
        part = text.trees.get(value)
        nodes: list[DraftNode] | None = None
        if part is not None and not part.is_hole:
            goal = draft.goal(value)
            own = Names(names.variables, made.leaf, goal.for_tree(len(made.leaf.states))) if goal else names
            reader = TreeReader(made, own, tree, value, draft.notes, draft.holes)
            nodes = reader.read(part)
            draft.node_lines[value] = reader.lines
        else:
            draft.holes.append(part.place if part else text.place)
        draft.put(value, nodes)
    return draft


def _whole_layers(drafts: list[LayerDraft] | None) -> tuple[Layer, ...] | None:
    """Layers where nothing is open in them."""
    layers = [Layer(layer.moves, layer.weights) for layer in drafts or [] if layer.weights is not None]
    return tuple(layers) if drafts is not None and len(layers) == len(drafts) else None


def _whole_tree(drafts: list[DraftNode] | None) -> tuple[Node, ...] | None:
    """A tree where nothing is open in it."""
    nodes = [n for n in drafts or [] if not isinstance(n, Hole)]
    return tuple(nodes) if drafts is not None and len(nodes) == len(drafts) else None


def _whole_goal(draft: ProofDraft, value: bool) -> Goal | None:
    """A goal where nothing is open in it."""
    goal = draft.goal(value)
    layers, nodes = _whole_layers(goal.layers) if goal else None, _whole_tree(draft.tree(value))
    return None if goal is None or layers is None or nodes is None else Goal(layers, goal.sets, nodes)


def finished(draft: ProofDraft, pred: str) -> Part | None:
    """The proof of a leaf with this predicate where nothing is open, else None."""
    if draft.goals is not None:
        on_true, on_false = _whole_goal(draft, True), _whole_goal(draft, False)
        return None if on_true is None or on_false is None else LeafGoals(pred, on_true, on_false)
    layers, true, false = _whole_layers(draft.layers), _whole_tree(draft.true), _whole_tree(draft.false)
    return None if layers is None or true is None or false is None else LeafProof(pred, layers, true, false)
