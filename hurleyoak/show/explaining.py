"""What there is to say of a proof: layers as tables, trees with their facts, and what is missing where it is refused.

The first line is the proved program's; all else is the workbench's own reading of the same bundle.
"""
from __future__ import annotations

from dataclasses import dataclass, field, replace
from functools import cached_property

from ..engine.claims import Claim, claimed
from ..proof.branches import Visit, visits
from ..proof.checking import LayerFault, layer_fault, verdict
from ..text.loaded import Loaded, LoadedBundle, predicates_differ
from ..proof.names import Names
from ..protocol.nets import Leaf
from ..protocol.predicatereader import read_predicate
from ..protocol.predicates import Predicate, canonical_text
from ..text.proofreader import GoalDraft, ProofDraft
from ..text.treereader import Note
from ..protocol.combining import combined_predicate
from ..proof.bundles import Bundle, First, Goal, Hole, Layer, LeafGoals, LeafProof, Linear, Node, Part, Residue
from ..protocol.naming import state_text
from ..text.writer import leaf_names, node_lines
from .goals import ToldGoal, told_goal
from .layers import ToldLayer as ToldLayer
from .layers import told_layer
from .reasons import closes_told, entries_told, gloss, layer_lacks, node_lacks, sum_told
from .soon import soon_told

ROOM = 100


@dataclass
class ToldFact:
    """A fact: its number, its name, what it says, what that means."""

    number: int
    name: str
    says: str
    means: str


@dataclass
class ToldNode:
    """A node as it is shown; `text` are its lines in the `.pop` file, `sum` and `closes` are for `lin` and `residue`,
    whose `terms` are the facts with their multipliers. `about` says of `first` which moves enter."""

    visit: Visit
    number: int
    facts: list[ToldFact]
    text: list[str]
    terms: list[tuple[int, ToldFact]] = field(default_factory=list)
    sum: str = ""
    closes: str = ""
    about: list[str] = field(default_factory=list)
    refused: str = ""
    lacks: list[str] = field(default_factory=list)
    notes: list[str] = field(default_factory=list)
    is_open: bool = False


@dataclass
class ToldLeaf:
    """A leaf with its proof."""

    leaf: Leaf
    part: Part
    names: Names
    tree: Predicate
    layers: list[ToldLayer] = field(default_factory=list)
    layer_fault: str = ""
    layer_lacks: list[str] = field(default_factory=list)
    goals: dict[bool, ToldGoal] = field(default_factory=dict)
    notes: list[str] = field(default_factory=list)

    @property
    def lacks(self) -> list[str]:
        """What is wrong with its layers, or with the layers or sets of its first goal that is refused."""
        return next((goal.lacks for goal in self.goals.values() if goal.fault), self.layer_lacks)

    @property
    def plain_layers(self) -> tuple[Layer, ...] | None:
        """The layers of a leaf that falls silent; None where it has goals."""
        return self.part.layers if isinstance(self.part, LeafProof) else None

    def names_for(self, value: bool) -> Names:
        """The names for the tree of a value."""
        return self.goals[value].names if value in self.goals else self.names

    def nodes(self, value: bool, notes: list[Note], holes: set[int]) -> "list[ToldNode]":
        """The nodes of a tree, up to the first one that is refused for its shape."""
        return [
            _node(self.names_for(value), visit, notes, holes)
            for visit in visits(self.names_for(value), self.tree, value, self.part.tree(value))
        ]


@dataclass(kw_only=True)
class Explanation:
    """All that is told of a bundle. `line` is what the program said, and `claim` what that claims."""

    line: str
    claim: Claim
    bundle: Bundle
    leaves: list[ToldLeaf]
    drafts: list[ProofDraft]
    warnings: list[str]
    predicate: list[str]
    differs: list[str]
    labels: list[str]

    @cached_property
    def soon(self) -> list[str]:
        """How soon a certified crowd comes to rest."""
        return soon_told(self.bundle, self.claim)

    def tree(self, at: int, value: bool) -> list[ToldNode]:
        """The nodes of a leaf's tree."""
        draft = self.drafts[at] if self.drafts else ProofDraft()
        notes = [note for note in draft.notes if note.tree is value]
        nodes = draft.tree(value) or []
        return self.leaves[at].nodes(value, notes, {i for i, n in enumerate(nodes) if isinstance(n, Hole)})


def _node(names: Names, visit: Visit, notes: list[Note], holes: set[int]) -> ToldNode:
    branch = visit.branch
    facts = [ToldFact(i, name, names.says(fact), gloss(name)) for i, fact, name in visit.own]
    told = ToldNode(visit, visit.number, facts, node_lines(visit, names, ROOM))
    told.notes = [f"{note.told}: left out (line {note.place.line})" for note in notes if note.node == visit.number]
    told.is_open = visit.number in holes
    if told.is_open:
        told.text = [f"{visit.label}: ?" if visit.label else "?"]
    node = visit.node
    if isinstance(node, (Linear, Residue)):
        told.terms = [
            (k, ToldFact(f, branch.names[f], names.says(branch.facts[f]), gloss(branch.names[f])))
            for f, k in node.terms
            if f < len(branch.facts)
        ]
    if visit.why:
        told.refused = visit.why
        told.lacks = node_lacks(names, branch.space, branch.facts, branch.names, node, visit.why)
    elif isinstance(node, First):
        told.about = entries_told(names, branch.space, node)
    elif isinstance(node, (Linear, Residue)):
        told.sum = sum_told(names, branch.facts, node)
        told.closes = closes_told(names, branch.facts, node)
    return told


def _leaf(bundle: Bundle, at: int, draft: ProofDraft | None) -> ToldLeaf:
    leaf, part = bundle.net.leaves[at], bundle.proof[at]
    names = Names(bundle.net.names, leaf)
    told = ToldLeaf(leaf, part, names, read_predicate(part.pred, bundle.net.names))
    if isinstance(part, LeafProof):
        told.layers = [told_layer(names, leaf, layer) for layer in part.layers]
        fault: LayerFault | None = layer_fault(leaf, part.layers)
        if fault:
            told.layer_fault, told.layer_lacks = fault.words(), layer_lacks(names, leaf, part.layers, fault)
    else:
        for value in (True, False):
            goal = part.goal(value)
            told.goals[value] = told_goal(Names(bundle.net.names, leaf, goal), leaf, value, goal)
    if draft:
        told.notes = [f"{note.told}: left out (line {note.place.line})" for note in draft.notes if note.tree is None]
    return told


def _closed_holes(draft: ProofDraft, text: str, states: int) -> Part:
    """A draft as a proof: open weights are 0, an open subtree is a `lin` without a fact, open layers and trees are
    empty."""

    def goal(value: bool) -> Goal:
        return replace((draft.goal(value) or GoalDraft()).for_tree(states), nodes=tree(value))

    def tree(value: bool) -> tuple[Node, ...]:
        return tuple(Linear(()) if isinstance(n, Hole) else n for n in draft.tree(value) or [])

    if draft.goals is not None:
        return LeafGoals(text, goal(True), goal(False))
    layers = [Layer(layer.moves, layer.weights or (0,) * states) for layer in draft.layers or []]
    return LeafProof(text, tuple(layers), tree(True), tree(False))


def bundle_to_explain(loaded: Loaded) -> Bundle:
    """The bundle of an input; where parts of its proof are open or missing, with nothing in their place."""
    if isinstance(loaded, LoadedBundle):
        return loaded.bundle
    trees = loaded.part_trees()
    drafts = loaded.drafts or [ProofDraft() for _ in trees]
    assert loaded.parts is not None and loaded.predicate is not None
    parts = [
        _closed_holes(draft, text, len(leaf.states))
        for draft, text, leaf in zip(drafts, loaded.parts, loaded.net.leaves)
    ]
    return Bundle(loaded.net, loaded.predicate, tuple(parts))


def explain(loaded: Loaded, bundle: Bundle, said: str) -> Explanation:
    """All that there is to say of a bundle, of which the program said this."""
    drafts = loaded.drafts or []
    leaves = [_leaf(bundle, i, drafts[i] if drafts else None) for i in range(len(bundle.net.leaves))]
    predicate = []
    if predicates_differ(loaded):
        made = combined_predicate(bundle.net, loaded.part_trees())
        whole = read_predicate(bundle.pred, bundle.net.names)
        predicate = [
            f"the leaves' predicates combine to {canonical_text(made, bundle.net.names)}",
            f"the bundle's predicate is {canonical_text(whole, bundle.net.names)}, another tree",
        ]
    own, line = verdict(bundle), said.split("\n", 1)[0]
    differs = (
        [
            f"the workbench reads this bundle otherwise, as `{own}`; the line above, the program's, is the one that"
            " counts"
        ]
        if own != line
        else []
    )
    return Explanation(
        line=line,
        claim=claimed(said),
        bundle=bundle,
        leaves=leaves,
        drafts=drafts,
        warnings=loaded.warnings,
        predicate=predicate,
        differs=differs,
        labels=[state_text(label) for label in loaded.labels] or leaf_names(bundle.net),
    )
