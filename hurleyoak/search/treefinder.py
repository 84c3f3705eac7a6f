"""The tree for one value: searched in several ways where there is time, and made smaller."""
from __future__ import annotations

from dataclasses import dataclass, replace
from typing import Sequence

from ..protocol.nets import Leaf
from ..protocol.predicates import Predicate
from ..text.treereader import DraftNode
from ..proof.bundles import Goal, Hole, Tree
from .branch import FLOATS, GaveUp, WrongEnd, greatest_number
from ..proof.items import Case, Cases
from .entering import DEEPEST
from .given import Prover
from .limits import Limit, clock
from .search import Way
from .shrinking import shrunk
from .solver import Trouble
from .tightening import tightened
from .trees import Grown, written

WAYS = (
    Way(6, is_told=True),
    Way(6, is_plain=True),
    Way(2, is_plain=True),
)  # one search after the other; the smallest tree is kept
ENOUGH = 5  # nodes of a tree that is small as it is
FAR = 2  # a tree that is so many times larger than another is left as it is

Found = tuple[Prover, Grown]


@dataclass(frozen=True)
class Sought:
    """What a tree is looked for: a branch with these facts; in exact numbers where floats won't do, and with `first`
    where it may stand."""

    cases: Cases
    base: Case
    exact: bool
    depth: int

    def searched(self, nodes: Sequence[DraftNode], limit: Limit, way: Way) -> Found:
        """One search."""
        way = replace(way, depth=self.depth)
        made = Prover(self.cases, self.base, limit, way, self.exact)
        try:
            return made, made.proved(nodes)
        except Trouble:
            if self.exact:
                raise
            made = Prover(self.cases, self.base, limit, way, True)
            return made, made.proved(nodes)


def _less(found: Found, limit: Limit, exact: bool) -> Found:
    """The tree with nodes dropped that it can do without; exact numbers take too long for that."""
    made, root = found
    return (made, root) if exact else (made, shrunk(made, root, limit))


def _smallest(sought: Sought, first: Found, limit: Limit, more: Limit) -> Found:
    """The smallest of the trees that are found in all ways, made smaller in its parts; a way is gone while there is
    `more` time."""
    exact = sought.exact
    best = _less(first, limit, exact)
    for way in WAYS[1:]:
        if best[1].size <= ENOUGH or more.is_over():
            break
        try:
            found = sought.searched([Hole()], limit, way)
        except (WrongEnd, GaveUp, Trouble):
            continue
        if found[1].size > FAR * best[1].size:
            continue
        found = _less(found, limit, exact)
        if found[1].size < best[1].size:
            best = found
    made, root = best
    if root.size > ENOUGH and not exact and not limit.is_over():
        made.limit = limit
        root = tightened(made, root)
    return made, root


def find_tree(
    leaf: Leaf,
    tree: Predicate,
    value: bool,
    nodes: Sequence[DraftNode] | None,
    deadline: float,
    small: float,
    goal: Goal | None = None,
    depth: int = 0,
) -> Tree:
    """The nodes for a value of the predicate, those that are given kept; or WrongEnd, GaveUp or Trouble. With a goal
    they are for its layers and sets. So many `first` as `depth` may stand one below the other.

    Where all of the tree is to be found, up to `small` seconds of this process's work then make it smaller.
    """
    limit = Limit(deadline)
    more = limit.after(small * 3 / 4)
    cases = Cases(leaf, goal)
    given: Sequence[DraftNode] = nodes if nodes is not None else [Hole()]
    sought = Sought(cases, cases.base(tree, value), greatest_number(tree) > FLOATS, depth)
    found = sought.searched(given, limit, WAYS[0])
    if len(given) == 1 and isinstance(given[0], Hole) and small > 0:
        found = _smallest(sought, found, limit.after(small), more)
    return written(found[0].base, found[1])


def find_deeper(
    leaf: Leaf,
    tree: Predicate,
    value: bool,
    nodes: Sequence[DraftNode] | None,
    deadline: float,
    small: float,
    goal: Goal | None = None,
    deepest: int = DEEPEST,
) -> Tree | None:
    """The same with `first` in it, where none was found without: one below the other as few as do."""
    for depth in range(1, deepest + 1):
        if clock() >= deadline:
            break
        try:
            return find_tree(leaf, tree, value, nodes, deadline, small, goal, depth)
        except (WrongEnd, GaveUp, Trouble):
            continue
    return None
