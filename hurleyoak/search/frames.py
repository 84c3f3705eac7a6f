"""A branch as a stack of frames: the facts of each case on the way, with the bounds that they give and known
points."""
from __future__ import annotations

from dataclasses import dataclass, field
from typing import Sequence

import numpy as np

from ..proof.facts import AT_LEAST, EQUAL, HOLDS
from ..proof.bundles import Node
from ..proof.items import Array, Case, Item, Row, Zeros, is_modular
from .trees import Entered

EPSILON = 1e-6
POOL = 16  # known points that are kept for a branch


@dataclass
class Lemma:
    """A node whose other cases close at once; `main` is the case in which the branch goes on, `at` the number of items
    before it."""

    node: Node
    cases: list[Case]
    main: int
    at: int = 0
    entered: Entered | None = None


class Frame:
    """What one case adds, and what holds with all frames below it: bounds, and points that meet all facts."""

    def __init__(self, below: "Frame | None", variables: int) -> None:
        self.below = below
        self.items: list[Item] = []
        self.lemmas: list[Lemma] = []
        self.pool: list[Array] = list(below.pool) if below else []
        self.rows: list[Row] = []
        self.mods: list[Row] = []
        self.least: Array = below.least.copy() if below else np.zeros(variables)
        self.most: Array = below.most.copy() if below else np.full(variables, np.inf)
        self.is_false: bool = below.is_false if below else False
        self.shut: set[tuple[int, int]] = set()  # states and cases of `present` that are closed by sums
        self.open_at = -1  # how many facts the stack had got below frames when this one was seen to be open

    def add(self, items: Sequence[Item]) -> None:
        """Adds facts."""
        for item in items:
            self.items.append(item)
            if isinstance(item, Row) and item.kind not in (AT_LEAST, EQUAL):
                if is_modular(item):
                    self.mods.append(item)
            elif isinstance(item, Row) and len(item.variables) > 1:
                self.rows.append(item)
        self.bound(items)
        self.pool = [point for point in self.pool if meets(point, items)]

    def bound(self, items: Sequence[Item]) -> None:
        """Tightens the bounds by facts on one variable."""
        for item in items:
            if isinstance(item, Zeros):
                self.is_false |= bool((self.least[item.variables] > EPSILON).any())
                self.most[item.variables] = 0
            elif item.kind not in (AT_LEAST, EQUAL):
                continue
            elif len(item.variables) == 0:
                self.is_false |= item.constant < 0 or (item.kind == EQUAL and item.constant != 0)
            elif len(item.variables) == 1:
                self._single(item)

    def _single(self, item: Row) -> None:
        a, k = int(item.variables[0]), int(item.numbers[0])
        at = -item.constant / k if k else 0.0
        if k == 0:
            self.is_false |= item.constant < 0 or (item.kind == EQUAL and item.constant != 0)
            return
        if item.kind == EQUAL or k > 0:
            self.least[a] = max(self.least[a], at)
        if item.kind == EQUAL or k < 0:
            self.most[a] = min(self.most[a], at)
        self.is_false |= bool(self.least[a] > self.most[a] + EPSILON)

    def refresh(self) -> None:
        """Takes the bounds anew from the frame below, where that one has got more facts."""
        assert self.below is not None
        self.least, self.most, self.is_false = self.below.least.copy(), self.below.most.copy(), self.below.is_false
        self.bound(self.items)


def meets(point: Array, items: Sequence[Item]) -> bool:
    """Whether a point meets the facts that are no congruences."""
    for item in items:
        if isinstance(item, Zeros):
            if (point[item.variables] > EPSILON).any():
                return False
        elif item.kind == AT_LEAST:
            if item.at(point) < -EPSILON:
                return False
        elif item.kind == EQUAL and abs(item.at(point)) > EPSILON:
            return False
    return True


@dataclass
class Stack:
    """The frames of a branch, the base facts' first."""

    variables: int
    frames: list[Frame] = field(default_factory=list)
    added: int = 0  # how often facts were added below the top

    @property
    def top(self) -> Frame:
        """The last frame."""
        return self.frames[-1]

    def push(self, items: Case, tried: Frame | None = None) -> Frame:
        """A frame more; one that was tried before, where no facts were added below it since."""
        if tried is not None and tried.open_at == self.added:
            frame = tried
        else:
            frame = Frame(self.frames[-1] if self.frames else None, self.variables)
            frame.add(items)
        frame.shut = set(frame.below.shut) if frame.below else set()
        self.frames.append(frame)
        return frame

    def beside(self, level: int, items: Case) -> Frame:
        """A frame above the one of a level, that isn't put on the stack."""
        frame = Frame(self.frames[level], self.variables)
        frame.add(items)
        return frame

    def add(self, level: int, items: Case) -> None:
        """More facts in a frame; those above it hold them too."""
        self.added += 1
        self.frames[level].add(items)
        for frame in self.frames[level + 1 :]:
            frame.refresh()
            frame.pool = [point for point in frame.pool if meets(point, items)]

    def line(self, frame: Frame) -> list[Frame]:
        """The frames from the first up to this one."""
        out: list[Frame] = []
        at: Frame | None = frame
        while at is not None:
            out.append(at)
            at = at.below
        return out[::-1]


def all_items(frames: Sequence[Frame]) -> list[Item]:
    """All facts of these frames."""
    return [item for frame in frames for item in frame.items]


def has_rests(frames: Sequence[Frame]) -> bool:
    """Whether some fact is about multiples."""
    return any(frame.mods for frame in frames)


def opened(items: Sequence[Item]) -> list[Row]:
    """The facts that `open` may name."""
    return [item for item in items if isinstance(item, Row) and item.kind == HOLDS]
