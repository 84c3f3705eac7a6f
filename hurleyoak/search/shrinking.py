"""Makes a found tree smaller: closes leaves anew without the facts of one case, so that the case's node falls out."""
from __future__ import annotations

from collections import defaultdict
from typing import Sequence

import numpy as np

from ..proof.facts import AT_LEAST, EQUAL

from .branch import Branch
from .frames import EPSILON
from ..proof.items import Array, Case, Item, Zeros
from .limits import Limit
from .residues import closes
from .solver import Trouble
from .trees import Grown, Opened, RestSum, Sum, ending

USERS = 8  # a case whose facts more leaves rest on is left alone


class _Survey:
    """All leaves of a tree with the cases above them, and which leaves rest on which case's facts."""

    def __init__(self, root: Grown) -> None:
        self.cases: list[Case] = []
        self.gain: list[int] = []
        self.leaves: list[tuple[Grown, list[int]]] = []
        self.users: dict[int, list[int]] = defaultdict(list)
        self.fixed: set[int] = set()
        self._walk(root)

    def _walk(self, root: Grown) -> None:
        home: dict[Item, int] = {}
        todo: list[tuple[Grown, list[int]]] = [(root, [])]
        while todo:
            node, path = todo.pop()
            if isinstance(node.kind, (Sum, RestSum)):
                for g in {home[item] for item in node.used if item in home}:
                    self.users[g].append(len(self.leaves))
                self.leaves.append((node, path))
            if isinstance(node.kind, Opened) and node.kind.item in home:
                self.fixed.add(home[node.kind.item])
            if node.entered is not None:
                self.fixed.update(home[item] for item in node.entered.used if item in home)
            for items, sub in node.cases:
                g = len(self.cases)
                self.cases.append(items)
                self.gain.append(node.size - sub.size)
                for item in items:
                    home[item] = g
                todo.append((sub, [*path, g]))

    def order(self) -> list[int]:
        """The cases that may fall out, the greatest gain for each leaf first."""
        free = [g for g, users in self.users.items() if g not in self.fixed and len(users) <= USERS]
        return sorted(free, key=lambda g: (-self.gain[g] / len(self.users[g]), g))


def _any_meets(points: Array, items: Sequence[Item]) -> bool:
    """Whether one of some points, a row each, meets all facts that are no congruences; then no sum of these facts
    closes."""
    for item in items:
        if not len(points):
            break
        if isinstance(item, Zeros):
            points = points[(points[:, item.variables] <= EPSILON).all(axis=1)]
        elif item.kind in (AT_LEAST, EQUAL):
            sums = points[:, item.variables] @ item.numbers + item.constant
            points = points[sums >= -EPSILON if item.kind == AT_LEAST else np.abs(sums) <= EPSILON]
    return len(points) > 0


def _closed_anew(node: Grown, branch: Branch, points: Array, cases: Sequence[Item]) -> Grown | None:
    """A leaf of the same kind over the facts of these cases alone; every point meets the base facts."""
    items = [*branch.base, *cases]
    if isinstance(node.kind, Sum):
        if _any_meets(points, cases):
            return None
        try:
            return ending(Sum(branch.solver.sums(items)))
        except Trouble:
            return None
    assert isinstance(node.kind, RestSum)
    found = branch.residues.closing(items, node.kind.modulus)
    return ending(found) if found and closes(found, branch.cases.variables) else None


def _rebuilt(node: Grown, fresh: dict[Grown, Grown]) -> Grown:
    if not node.cases:
        return fresh.get(node, node)
    return node.with_cases([(items, _rebuilt(sub, fresh)) for items, sub in node.cases])


def _round(branch: Branch, root: Grown, limit: Limit) -> dict[Grown, Grown]:
    """Leaves closed anew, so that some cases aren't used any more."""
    survey = _Survey(root)
    fresh: dict[Grown, Grown] = {}
    points = np.stack(branch.kept) if branch.kept else np.zeros((0, branch.cases.variables))
    for g in survey.order():
        if limit.is_over():
            break
        trial: dict[Grown, Grown] = {}
        for i in survey.users[g]:
            node, path = survey.leaves[i]
            items = [item for k in path if k != g for item in survey.cases[k]]
            new = (
                None if node in fresh else _closed_anew(node, branch, points, items)
            )  # one that changed is looked at in the next round
            if new is None:
                trial = {}
                break
            trial[node] = new
        fresh.update(trial)
    return fresh


def shrunk(branch: Branch, root: Grown, limit: Limit) -> Grown:
    """The tree with nodes dropped that it can do without, until none is found or the time is up."""
    while not limit.is_over():
        fresh = _round(branch, root, limit)
        less = _rebuilt(root, fresh) if fresh else root
        if less.size >= root.size:
            return root
        root = less
    return root
