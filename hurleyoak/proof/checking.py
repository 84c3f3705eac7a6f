"""The workbench's own reading of a proof: where it fails first, and why. It decides nothing: `program.check` does.

The order of faults is the program's: leaf by leaf layers, the tree for true, the tree for false; last the predicate.
"""
from __future__ import annotations

from dataclasses import dataclass
from typing import Iterable, Sequence

from .facts import AT_LEAST, DIVIDES, EQUAL, FACT_LIMIT, HOLDS, NOT_DIVIDES, Fact, Space, cases_of
from ..protocol.nets import Leaf, Net, pair
from ..protocol.predicatereader import read_predicate
from ..protocol.predicates import Predicate
from ..protocol.combining import combined_predicate
from .bundles import Bundle, First, Goal, Layer, LeafProof, Linear, Node, Open, Part, Residue, Term, Twin
from .ends import kept
from .entries import entries_of
from .staying import agents_before as agents_before
from .staying import SetFault, sets_fault

PATH_LIMIT = 4_096


@dataclass(frozen=True)
class LayerFault:
    """Where layers fail: `shape` at a layer, `no-layer` or `not-lower` at a move, `wakes` at a move and the one
    woken."""

    why: str
    at: int
    other: int = -1

    def words(self) -> str:
        """The program's words."""
        return f"layers {self.why} {self.at}" + (f" {self.other}" if self.why == "wakes" else "")


@dataclass(frozen=True)
class TreeFault:
    """The first node that is refused, and why."""

    node: int
    why: str

    def words(self) -> str:
        """The program's words."""
        return f"{self.node} {self.why}"


def layer_fault(leaf: Leaf, layers: Sequence[Layer]) -> LayerFault | None:
    """The first place at which layers fail: all of a kind come before those of the next kind."""
    place: dict[int, int] = {}
    for n, layer in enumerate(layers):
        if len(layer.weights) != len(leaf.states):
            return LayerFault("shape", n)
        for t in layer.moves:
            if t >= len(leaf.moves) or t in place:
                return LayerFault("shape", n)
            place[t] = n
    for t in leaf.active:
        if t not in place:
            return LayerFault("no-layer", t)
    for t in leaf.active:
        p, q, r, s = leaf.moves[t]
        w = layers[place[t]].weights
        if not w[r] + w[s] < w[p] + w[q]:
            return LayerFault("not-lower", t)
    woken = first_woken(leaf, place)
    return LayerFault("wakes", *woken) if woken else None


def first_woken(leaf: Leaf, place: dict[int, int]) -> tuple[int, int] | None:
    """The least move that wakes one of an earlier layer, and the least one that it wakes."""
    first: dict[tuple[int, int], int] = {}
    listed: dict[tuple[int, int], list[int]] = {}
    for u in leaf.active:
        key = pair(*leaf.moves[u][:2])
        first[key] = min(first.get(key, place[u]), place[u])
        listed.setdefault(key, []).append(u)
    for t in leaf.active:
        at = place[t]
        # a pair without a state that t puts stands beside t's agents already
        near = {pair(y, b) for y in leaf.moves[t][2:] for b in leaf.partners[y]} if at else set()
        woken = [
            u for key in near if first[key] < at for u in listed[key] if place[u] < at and wakes(leaf, t, u, first, at)
        ]
        if woken:
            return t, min(woken)
    return None


def wakes(leaf: Leaf, t: int, u: int, first: dict[tuple[int, int], int], at: int) -> bool:
    """Whether move t of layer `at` can make u possible where no move of the layers before was; `first` has each pair's
    first layer."""
    agents = agents_before(leaf, t, u)
    for i, p in enumerate(agents):
        for q in agents[i + 1 :]:
            if first.get(pair(p, q), at) < at:
                return False
    return True


def total(facts: Sequence[Fact], terms: Iterable[Term]) -> tuple[dict[int, int], int]:
    """The sum of the named facts' rows times their multipliers: coefficients, and the constant."""
    coefficients: dict[int, int] = {}
    constant = 0
    for number, k in terms:
        fact = facts[number]
        constant += k * fact.constant
        for a, c in fact.terms:
            coefficients[a] = coefficients.get(a, 0) + k * c
    return coefficients, constant


def closes_by_sum(facts: Sequence[Fact], terms: Iterable[Term]) -> bool:
    """The rule of `lin`; all numbers of facts are in range."""
    terms = tuple(terms)
    for number, k in terms:
        if not (facts[number].kind == EQUAL or (facts[number].kind == AT_LEAST and k >= 0)):
            return False
    coefficients, constant = total(facts, terms)
    return constant <= -1 and all(k <= 0 for k in coefficients.values())


def denied(facts: Sequence[Fact], modulus: int, coefficients: dict[int, int], constant: int) -> Fact | None:
    """The fact that says the modulus doesn't divide such a sum, if there is one."""
    for fact in facts:
        if fact.kind == NOT_DIVIDES and fact.modulus == modulus and (constant - fact.constant) % modulus == 0:
            left = dict(coefficients)
            for a, k in fact.terms:
                left[a] = left.get(a, 0) - k
            if all(k % modulus == 0 for k in left.values()):
                return fact
    return None


def closes_by_residue(facts: Sequence[Fact], modulus: int, terms: Iterable[Term]) -> bool:
    """The rule of `residue`; all numbers of facts are in range."""
    terms = tuple(terms)
    for number, _ in terms:
        fact = facts[number]
        if not (fact.kind == EQUAL or (fact.kind == DIVIDES and fact.modulus == modulus)):
            return False
    coefficients, constant = total(facts, terms)
    if constant % modulus and all(k % modulus == 0 for k in coefficients.values()):
        return True
    return denied(facts, modulus, coefficients, constant) is not None


def node_fault(space: Space, facts: list[Fact], above: int, node: Node) -> str | None:
    """Why a node is refused that has so many nodes above it, and these facts."""
    if above >= PATH_LIMIT:
        return "too-deep"
    if isinstance(node, (Linear, Residue)):
        if any(number >= len(facts) for number, _ in node.terms):
            return "bad-index"
        closed = (
            closes_by_sum(facts, node.terms)
            if isinstance(node, Linear)
            else closes_by_residue(facts, node.modulus, node.terms)
        )
        return None if closed else "not-closed"
    if isinstance(node, Open) and node.fact >= len(facts) or not space.is_in_range(node):
        return "bad-index"
    if isinstance(node, Twin) and node.state not in space.partners[node.state]:
        return "no-twin"
    if isinstance(node, Open) and facts[node.fact].kind != HOLDS:
        return "not-open"
    if any(case.count > FACT_LIMIT for case in _waiting(space, facts, above, node)):
        return "too-many-facts"
    return None


@dataclass
class _Case:
    """A case that waits for its nodes: the nodes above it, and its own facts behind the first ones of a list."""

    above: int
    space: Space
    facts: list[Fact]
    kept: int
    own: list[Fact]

    @property
    def count(self) -> int:
        """How many facts it has."""
        return self.kept + len(self.own)


def _waiting(space: Space, facts: list[Fact], above: int, node: Node) -> list[_Case]:
    """The cases of a node, in order; those of an entry have a list of their own."""
    cases = [_Case(above + 1, space, facts, len(facts), own) for own in cases_of(space, facts, node)]
    if not isinstance(node, First) or not space.is_in_range(node):
        return cases
    entries = entries_of(space, facts, node)
    count = len(entries.facts)
    return [_Case(above + 1, entries.space, entries.facts, count, own) for own in entries.cases] + cases


def tree_fault(space: Space, tree: Predicate, value: bool, nodes: Sequence[Node]) -> TreeFault | None:
    """The first node of a tree in preorder that is refused, and why."""
    waiting = [_Case(0, space, [], 0, space.base(tree, value))]
    for number, node in enumerate(nodes):
        if not waiting:
            return TreeFault(number, "rest")
        case = waiting.pop()
        facts = case.facts
        facts[case.kept :] = case.own
        why = node_fault(case.space, facts, case.above, node)
        if why is not None:
            return TreeFault(number, why)
        waiting += reversed(_waiting(case.space, facts, case.above, node))
    return TreeFault(len(nodes), "missing") if waiting else None


def goal_fault(leaf: Leaf, tree: Predicate, value: bool, goal: Goal) -> LayerFault | SetFault | TreeFault | None:
    """Where a goal fails first: its layers, for the moves that they list alone; its sets; its tree."""
    return (
        layer_fault(kept(leaf, goal.listed), goal.layers)
        or sets_fault(leaf, value, goal)
        or tree_fault(Space(leaf, goal), tree, value, goal.nodes)
    )


def part_fault(leaf: Leaf, part: Part, tree: Predicate) -> str:
    """Where a leaf's proof fails first, in the program's words; empty where it is valid."""
    broken = layer_fault(leaf, part.layers) if isinstance(part, LeafProof) else None
    if broken:
        return broken.words()
    for value in (True, False):
        goal = part.goal(value)
        fault = goal_fault(leaf, tree, value, goal) if goal else tree_fault(Space(leaf), tree, value, part.tree(value))
        if fault:
            return f"{str(value).lower()} {fault.words()}"
    return ""


def bound(bundle: Bundle) -> int:
    """What `certified` or `stable` says of a valid proof: the bounds of all leaves, added up."""
    return sum(part.bound for part in bundle.proof)


def predicates_agree(net: Net, bundle: Bundle) -> bool:
    """Whether the leaves' predicates combine to the bundle's."""
    parts = [read_predicate(part.pred, net.names) for part in bundle.proof]
    return combined_predicate(net, parts) == read_predicate(bundle.pred, net.names)


def verdict(bundle: Bundle) -> str:
    """The first line that the program is expected to print; only the program's own line counts."""
    for i, (leaf, part) in enumerate(zip(bundle.net.leaves, bundle.proof)):
        words = part_fault(leaf, part, read_predicate(part.pred, bundle.net.names))
        if words:
            return f"rejected leaf {i} {words}"
    if not predicates_agree(bundle.net, bundle):
        return "rejected predicate"
    return f"{'stable' if bundle.has_goals else 'certified'} {bound(bundle)}"
