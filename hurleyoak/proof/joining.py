"""Joins bundles: leaves side by side, variables by name, proofs kept by the names of their facts."""
from __future__ import annotations

import re
from dataclasses import replace
from typing import Mapping, Sequence

from .branches import Branch, visits
from .checking import total
from ..faults import InputFault
from .names import Names
from ..protocol.nets import Item, Leaf, Net
from ..protocol.predicatereader import read_predicate
from ..protocol.predicates import Predicate
from .bundles import Bundle, LeafGoals, Linear, Node, Open, Part, Residue, Split, Term

Starts = Mapping[str, str]


class Lost(Exception):
    """A fact that a proof names isn't there any more; the text names it."""


def _fact(name: str, branch: Branch) -> int:
    if name not in branch.numbers:
        raise Lost(name)
    return branch.numbers[name]


def _moved(node: Node, old: Branch, new: Branch, variables: Sequence[int]) -> Node:
    """A node with the numbers that the facts and variables of the same names have now."""

    def terms(given: Sequence[Term]) -> tuple[Term, ...]:
        return tuple((_fact(old.names[f], new), k) for f, k in given)

    if isinstance(node, Linear):
        return Linear(terms(node.terms))
    if isinstance(node, Residue):
        return Residue(node.modulus, terms(node.terms))
    if isinstance(node, Open):
        return Open(_fact(old.names[node.fact], new))
    if isinstance(node, Split):
        return Split(tuple(sorted((variables[a], k) for a, k in node.terms)), node.constant)
    return node


def _mended(node: Linear, branch: Branch, variables: Sequence[str]) -> Linear:
    """The sum, with the facts that nobody starts by an input whose coefficient would be above 0."""
    coefficients, _ = total(branch.facts, node.terms)
    more = [
        (branch.numbers[f"none({name})"], -coefficients[i])
        for i, name in enumerate(variables)
        if coefficients.get(i, 0) > 0 and f"none({name})" in branch.numbers
    ]
    return Linear((*node.terms, *more))


def moved_tree(
    before: Names,
    after: Names,
    trees: tuple[Predicate, Predicate],
    value: bool,
    nodes: Sequence[Node],
    variables: Sequence[int],
) -> tuple[Node, ...]:
    """A valid tree for a leaf whose inputs have changed: the same nodes over the facts of the same names, or Lost.

    `trees` are the predicate over the variables before and after; `variables` gives each old variable's new number.
    """
    waiting = [Branch(after).base(trees[1], value)]
    out: list[Node] = []
    for visit in visits(before, trees[0], value, nodes):
        if visit.node is None or visit.why:
            raise Lost(f"node {visit.number}")
        new = waiting.pop().enter()
        node = _moved(visit.node, visit.branch, new, variables)
        if isinstance(node, Linear):
            node = _mended(node, new, after.variables)
        out.append(node)
        waiting += reversed(new.cases(node))
    return tuple(out)


def widened(bundle: Bundle, at: int, names: Sequence[str], starts: Starts) -> tuple[Leaf, Part]:
    """A leaf over more variables, those that it lacks starting where `starts` says, with its proof; InputFault or
    Lost."""
    leaf, part, own = bundle.net.leaves[at], bundle.proof[at], bundle.net.names
    inputs = []
    for name in names:
        if name in own:
            inputs.append(leaf.inputs[own.index(name)])
        else:
            inputs.append(_start(leaf, name, starts, at))
    wide = replace(leaf, inputs=tuple(inputs))
    trees = read_predicate(part.pred, own), read_predicate(part.pred, names)
    shift = len(names) - len(own)
    variables = [list(names).index(v) for v in own] + [
        a + shift for a in range(len(own), len(own) + len(leaf.states) + len(leaf.moves))
    ]

    def moved(value: bool) -> tuple[Node, ...]:
        goal = part.goal(value)
        before, after = Names(own, leaf, goal), Names(names, wide, goal)
        return moved_tree(before, after, trees, value, part.tree(value), variables)

    return wide, with_trees(part, moved(True), moved(False))


def with_trees(part: Part, true: tuple[Node, ...], false: tuple[Node, ...]) -> Part:
    """The same proof with these trees."""
    if isinstance(part, LeafGoals):
        return replace(part, on_true=replace(part.on_true, nodes=true), on_false=replace(part.on_false, nodes=false))
    return replace(part, true=true, false=false)


def _start(leaf: Leaf, name: str, starts: Starts, at: int) -> int:
    if name not in starts:
        raise InputFault(
            f"variable `{name}` is in one of the two alone: say where it starts in the other, as `--start"
            f" {name}=STATE`; it has {', '.join(leaf.states[:12])}"
        )
    parts = starts[name].split("/")
    state = parts[at] if at < len(parts) and len(parts) > 1 else parts[0]
    if state not in leaf.states:
        raise InputFault(
            f"`{state}`, where `{name}` is to start, is no state of leaf {at}; it has {', '.join(leaf.states[:12])}"
        )
    return leaf.states.index(state)


def _closed(text: str) -> str:
    return f"({text})" if re.search(r"[!&|]", text) else text


def negated(bundle: Bundle) -> Bundle:
    """The bundle of the negation."""
    combine: tuple[Item, ...] = (*bundle.net.combine, "not")
    return replace(bundle, net=replace(bundle.net, combine=combine), pred=f"!({bundle.pred})")


def joined(word: str, first: Bundle, second: Bundle, starts: Starts) -> Bundle:
    """One bundle of two, whose net says `and` or `or` of both. InputFault where they don't fit; Lost where a proof
    can't be kept."""
    names = (*first.net.names, *(n for n in second.net.names if n not in first.net.names))
    counts = {len(leaf.helpers) for leaf in (*first.net.leaves, *second.net.leaves)}
    if len(counts) > 1:
        raise InputFault(
            f"the leaves of a net have equally many helpers, and these have {' and '.join(map(str, sorted(counts)))}"
        )
    leaves: list[Leaf] = []
    parts: list[Part] = []
    for bundle in (first, second):
        for at in range(len(bundle.net.leaves)):
            leaf, part = widened(bundle, at, names, starts)
            leaves.append(leaf)
            parts.append(part)
    shift = len(first.net.leaves)
    shifted: list[Item] = [i + shift if isinstance(i, int) else i for i in second.net.combine]
    net = Net(names, tuple(leaves), (*first.net.combine, *shifted, word), 2 if counts != {0} else 1)
    sign = "&&" if word == "and" else "||"
    return Bundle(net, f"{_closed(first.pred)} {sign} {_closed(second.pred)}", tuple(parts))
