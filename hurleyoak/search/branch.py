"""What the search asks of a branch: known points, whether a case is closed, and the node that closes it."""
from __future__ import annotations

from collections import deque
from dataclasses import dataclass
from typing import Sequence

import numpy as np

from ..protocol.predicates import And, Less, Not, Or, Predicate, Rest
from .exact import ExactSolver
from .frames import POOL, Frame, Stack, all_items, has_rests
from ..proof.items import Array, Case, Cases
from .limits import Limit
from .residues import Residues, closes
from .sets import Sets
from .solver import Solver
from .trees import Grown, RestSum, Sum, ending

KEPT = 400  # points of all branches that are kept for making the tree smaller
FLOATS = 1 << 17  # predicates with greater numbers are left to exact arithmetic


class WrongEnd(Exception):
    """A point in whole numbers that meets all facts, and that no node here excludes."""

    def __init__(self, point: Array) -> None:
        super().__init__("candidate wrong end")
        self.point = [round(k) for k in point]


class GaveUp(Exception):
    """Out of time, of depth, or of ideas; the text says which."""


OUT_OF_TIME = "out of time"


def greatest_number(tree: Predicate) -> int:
    """The greatest number in a predicate, in size."""
    if isinstance(tree, Less):
        return max(abs(k) for k in (*tree.coefficients, tree.bound))
    if isinstance(tree, Rest):
        return max(abs(k) for k in (*tree.coefficients, tree.modulus, tree.rest))
    if isinstance(tree, Not):
        return greatest_number(tree.part)
    assert isinstance(tree, (And, Or))
    return max(greatest_number(tree.left), greatest_number(tree.right))


@dataclass
class Tried:
    """Whether a case closes; its frame, and the residue that closes it."""

    is_closed: bool
    frame: Frame | None = None
    residue: RestSum | None = None


class Branch:
    """The stack of a search with its solver."""

    def __init__(self, cases: Cases, base: Case, limit: Limit, exact: bool) -> None:
        self.cases, self.limit, self.exact = cases, limit, exact
        self.sets = Sets(cases)
        self.solver: Solver = ExactSolver(cases, limit) if exact else Solver(cases)
        self.residues = Residues(cases.variables, cases.first_move)
        self.base = base
        self.failed = {"siphon": 0, "trap": 0}
        self.seen = np.zeros(cases.moves, dtype=bool)
        self.kept: deque[Array] = deque(maxlen=KEPT)
        self.stack = Stack(cases.variables)
        self.stack.push(self.base)

    def in_time(self) -> None:
        """GaveUp where the time is up."""
        if self.limit.is_over():
            raise GaveUp(OUT_OF_TIME)

    def point_of(self, frame: Frame, eager: Array | None = None) -> Array | None:
        """A point of the branch up to a frame: a known one, or by a linear program."""
        if not frame.pool:
            self.in_time()
            point = self.solver.point(self.stack.line(frame), eager=eager)
            if point is None:
                return None
            frame.pool.append(point)
            self.kept.append(point)
            if frame is self.stack.top:
                for below in self.stack.frames[:-1]:
                    below.pool = below.pool[-POOL:] + [point]
        return frame.pool[-1]

    def side_point(self, items: Case, eager: Array | None = None) -> Array | None:
        """A point of the branch that meets a case's facts too; it becomes one of the branch's known points."""
        frame = self.stack.beside(len(self.stack.frames) - 1, items)
        known = bool(frame.pool)
        point = self.point_of(frame, eager)
        if point is not None and not known:
            pool = self.stack.top.pool
            pool.insert(max(len(pool) - 1, 0), point)
            del pool[: -2 * POOL]
        return point

    def is_empty(self, level: int, items: Case) -> bool:
        """Whether the facts of a level and of a case exclude each other as linear facts."""
        return self.point_of(self.stack.beside(level, items)) is None

    def residue(self, frame: Frame) -> RestSum | None:
        """A `residue` that closes the branch up to a frame."""
        line = self.stack.line(frame)
        if not has_rests(line):
            return None
        items = all_items(line)
        for m in sorted({row.modulus for one in line for row in one.mods}):
            found = self.residues.closing(items, m)
            if found is not None and closes(found, self.cases.variables):
                return found
        return None

    def known_shut(self) -> set[tuple[int, int]]:
        """The cases of `present` at the branch that are known to be closed by sums: states, and numbers of cases."""
        return self.stack.top.shut

    def tried(self, state: int, case: int, items: Case) -> Tried:
        """Whether a case of `present` at the branch closes at once."""
        known = self.known_shut()
        if (state, case) in known:
            return Tried(True)
        frame = self.stack.beside(len(self.stack.frames) - 1, items)
        if self.point_of(frame) is None:
            known.add((state, case))
            return Tried(True)
        found = self.residue(frame)
        if found is None:
            frame.open_at = self.stack.added
        return Tried(found is not None, frame, found)

    def closed(self) -> Grown | None:
        """The node that closes the branch at once, if there is one."""
        top = self.stack.top
        if top.open_at == self.stack.added:
            return None
        if self.point_of(top) is None:
            return ending(Sum(self.solver.sums(all_items(self.stack.line(top)))))
        found = self.residue(top)
        return ending(found) if found else None

    def summed(self, frames: Sequence[Frame], items: Case) -> Grown:
        """A `lin` over the facts of frames and more."""
        return ending(Sum(self.solver.sums([*all_items(frames), *items])))

    def undecided(self) -> list[int]:
        """The states that react with some other, and are neither known to be there nor to be absent."""
        top, first = self.stack.top, self.cases.inputs
        least, most = top.least[first : self.cases.first_move], top.most[first : self.cases.first_move]
        out: list[int] = np.nonzero(self.cases.near.any(axis=1) & (most > 0) & (least < 1))[0].tolist()
        return out
