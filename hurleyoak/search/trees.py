"""Proof trees over facts by identity; a node whose case is closed without the case's own facts falls out."""
from __future__ import annotations

from dataclasses import dataclass, field
from typing import Iterable, Sequence, Union

from ..proof.bundles import Linear, Node, Open, Residue, Tree
from ..proof.items import Case, Cases, Item, Ref

Terms = list[tuple[Ref, int]]


@dataclass
class Opened:
    """`open` at a fact that has no number yet."""

    item: Item


@dataclass
class Sum:
    """`lin` over facts that have no numbers yet."""

    terms: Terms


@dataclass
class RestSum:
    """`residue` over facts that have no numbers yet, and the fact that denies the sum where one does."""

    modulus: int
    terms: Terms
    denied: Item | None = None


Kind = Union[Node, Opened, Sum, RestSum]


@dataclass(eq=False)
class Entered:
    """The trees of the entries of a `first`, each behind that its move is possible. They rest on the flow facts, on
    those of the input in the node's branch, and on those that nobody was in the set."""

    cases: Cases
    flow: Case
    nobody: Case
    trees: list[tuple[Case, "Grown"]] = field(default_factory=list)
    origin: dict[Item, Item] = field(default_factory=dict)

    def base(self, branch: Iterable[Item]) -> Case:
        """The facts of all entries below a branch with these facts."""
        known = [(self.cases.about_inputs(item), item) for item in branch]
        self.origin.update((part, item) for part, item in known if part is not None)
        return [*self.flow, *(part for part, _ in known if part is not None), *self.nobody]

    @property
    def used(self) -> frozenset[Item]:
        """The facts of the node's branch on which they rest."""
        return frozenset(self.origin[item] for _, sub in self.trees for item in sub.used if item in self.origin)


@dataclass(eq=False)
class Grown:
    """A node with the trees of its cases. `used` are the facts from outside on which it rests."""

    kind: Kind
    cases: list[tuple[Case, "Grown"]] = field(default_factory=list)
    used: frozenset[Item] = frozenset()
    size: int = 1
    entered: Entered | None = None

    def with_cases(self, cases: list[tuple[Case, "Grown"]]) -> "Grown":
        """The same node with other trees of its cases."""
        return grown(self.kind, cases, entered=self.entered)


def ending(kind: Sum | RestSum) -> Grown:
    """A node without cases."""
    used = {item for (item, _), _ in kind.terms}
    if isinstance(kind, RestSum) and kind.denied is not None:
        used.add(kind.denied)
    return Grown(kind, used=frozenset(used))


def grown(kind: Kind, cases: list[tuple[Case, Grown]], keep: bool = False, entered: Entered | None = None) -> Grown:
    """The node; or, unless it is to be kept, the smallest tree of a case that does without the case's facts."""
    free = [sub for items, sub in cases if sub.used.isdisjoint(items)]
    if free and not keep:
        return min(free, key=lambda sub: sub.size)
    used: set[Item] = {kind.item} if isinstance(kind, Opened) else set()
    for items, sub in cases:
        used |= sub.used.difference(items)
    size = 1 + sum(sub.size for _, sub in cases)
    if entered is not None:
        used |= entered.used
        size += sum(sub.size for _, sub in entered.trees)
    return Grown(kind, cases, frozenset(used), size, entered)


def _placed(terms: Iterable[tuple[Ref, int]], starts: dict[Item, int]) -> tuple[tuple[int, int], ...]:
    return tuple(sorted((starts[item] + at, k) for (item, at), k in terms))


def written(base: Sequence[Item], root: Grown) -> Tree:
    """The nodes in preorder, with the numbers of their facts."""
    out: list[Node] = []
    starts: dict[Item, int] = {}
    trail: list[tuple[Item, int]] = []
    todo: list[tuple[int, Sequence[Item], Grown]] = [(0, base, root)]
    while todo:
        kept, items, node = todo.pop()
        for item, _ in trail[kept:]:
            del starts[item]
        del trail[kept:]
        count = trail[-1][1] if trail else 0
        for item in items:
            starts[item] = count
            count += len(item)
            trail.append((item, count))
        kind = node.kind
        if isinstance(kind, Sum):
            out.append(Linear(_placed(kind.terms, starts)))
        elif isinstance(kind, RestSum):
            out.append(Residue(kind.modulus, _placed(kind.terms, starts)))
        elif isinstance(kind, Opened):
            out.append(Open(starts[kind.item]))
        else:
            out.append(kind)
        if node.entered is not None:
            known = node.entered.base([item for item, _ in trail])
            for own, sub in node.entered.trees:
                out += written([*known, *own], sub)
        todo += [(len(trail), own, sub) for own, sub in reversed(node.cases)]
    return tuple(out)
