"""Walks a tree of cases: each node with its branch, that is the facts so far with their names and numbers."""
from __future__ import annotations

from dataclasses import dataclass
from typing import Iterator, Sequence

from .checking import node_fault
from .entries import entries_of
from .facts import Fact, Space, cases_of
from .names import NO_LABEL, Names
from ..protocol.predicates import Predicate
from .bundles import First, Node


class Branch:
    """The facts of one branch, numbered from 0, and their names; a name that is there already gets `/2` and so on."""

    def __init__(self, said: Names, space: Space | None = None) -> None:
        self.said = said
        self.space = space or Space(said.leaf, said.goal)
        self.facts: list[Fact] = []
        self.names: list[str] = []
        self.numbers: dict[str, int] = {}

    def enter(self, kept: int, own: Sequence[Fact], names: Sequence[str]) -> None:
        """Goes back to the first `kept` facts, and adds those of a case."""
        for name in self.names[kept:]:
            del self.numbers[name]
        del self.facts[kept:]
        del self.names[kept:]
        for name in names:
            free, again = name, 1
            while free in self.numbers:
                again += 1
                free = f"{name}/{again}"
            self.numbers[free] = len(self.names)
            self.names.append(free)
        self.facts += own

    def base(self, tree: Predicate, value: bool) -> NamedCase:
        """The case at the top of a tree."""
        return NamedCase(NO_LABEL, self, 0, self.space.base(tree, value), self.said.base())

    def cases(self, node: Node) -> list[NamedCase]:
        """The cases of a node, in order; none where it has none, or is refused. Entries share a branch of their
        own."""
        made = cases_of(self.space, self.facts, node)
        labels = self.said.cases(node, self.facts, self.names) if made else []
        cases = [NamedCase(label, self, len(self.facts), own, names) for (label, names), own in zip(labels, made)]
        return [*self._entries(node), *cases] if isinstance(node, First) and made else cases

    def _entries(self, node: First) -> list[NamedCase]:
        entries = entries_of(self.space, self.facts, node)
        branch = Branch(self.said.still(), entries.space)
        known = self.said.before(self.space, node, self.facts, self.names)
        out = []
        for t, own in zip(entries.moves, entries.cases):
            label, names = self.said.entry(t)
            out.append(NamedCase(label, branch, len(entries.facts), own, names))
        if out:  # (the first one brings what all have in common)
            out[0] = NamedCase(out[0].label, branch, 0, entries.facts + out[0].own, known + out[0].names)
        return out


@dataclass
class NamedCase:
    """A case of a node: its label, the branch in which it stands behind the first `kept` facts, and its own facts with
    their names."""

    label: str
    branch: Branch
    kept: int
    own: list[Fact]
    names: list[str]

    def enter(self) -> Branch:
        """Its branch, with its facts."""
        self.branch.enter(self.kept, self.own, self.names)
        return self.branch


@dataclass(kw_only=True)
class Visit:
    """One node, or the end of the nodes where `node` is None. The branch is as it is at this node until the next
    visit."""

    number: int
    node: Node | None
    label: str
    level: int
    kept: int
    branch: Branch
    why: str | None
    owner: int
    is_first: bool
    is_last: bool
    flat: bool
    above: int

    @property
    def own(self) -> list[tuple[int, Fact, str]]:
        """The facts that the node's case added: number, fact, name."""
        return [(i, self.branch.facts[i], self.branch.names[i]) for i in range(self.kept, len(self.branch.facts))]


@dataclass(kw_only=True)
class _Waiting:
    case: NamedCase
    level: int = 0
    owner: int = -1
    is_last: bool = True
    above: int = 0
    is_first: bool = False


def _visit(waiting: _Waiting, number: int, node: Node | None, why: str | None, flat: bool) -> Visit:
    case = waiting.case
    return Visit(
        number=number,
        node=node,
        label=case.label,
        level=waiting.level,
        kept=case.kept,
        branch=case.branch,
        why=why,
        owner=waiting.owner,
        is_first=waiting.is_first,
        is_last=waiting.is_last,
        flat=flat,
        above=waiting.above,
    )


def _rest(number: int, node: Node, branch: Branch) -> Visit:
    """A node that is one too many."""
    case = NamedCase(NO_LABEL, branch, len(branch.facts), [], [])
    return _visit(_Waiting(case=case, is_first=True), number, node, "rest", True)


def _below(waiting: _Waiting, number: int, cases: Sequence[NamedCase]) -> list[_Waiting]:
    """The cases of a node. One whose case has a label and which has just one case itself stands one level deeper than
    its label."""
    flat = len(cases) == 1
    level = waiting.level + 1 if waiting.case.label and flat else waiting.level
    return [
        _Waiting(
            case=case,
            level=level if flat else level + 1,
            owner=number,
            is_last=i == len(cases) - 1,
            above=waiting.above + 1,
            is_first=i == 0,
        )
        for i, case in enumerate(cases)
    ]


def visits(names: Names, tree: Predicate, value: bool, nodes: Sequence[Node]) -> Iterator[Visit]:
    """Each node in preorder; then `missing` where a case has none, or a `rest` where there are too many."""
    branch = Branch(names)
    todo = [_Waiting(case=branch.base(tree, value))]
    for number, node in enumerate(nodes):
        if not todo:
            yield _rest(number, node, branch)
            return
        waiting = todo.pop()
        branch = waiting.case.enter()
        why = node_fault(branch.space, branch.facts, waiting.above, node)
        cases = branch.cases(node)
        yield _visit(waiting, number, node, why, len(cases) == 1)
        todo += reversed(_below(waiting, number, cases))
    if todo:
        todo[-1].case.enter()
        yield _visit(todo[-1], len(nodes), None, "missing", True)
