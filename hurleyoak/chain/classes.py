"""Which crowds of a space lead to each other, and in which order: classes, closed ones, and levels above them."""
from __future__ import annotations

import numpy as np

from .rules import Integers
from .space import Space


class Classes:
    """Crowds that lead to each other are one class. A class that no step leaves is closed.

    `level` is 0 for crowds of closed classes; from others every step leads to their own class or to a lower level.
    `order` has the crowds by their levels and classes, and `bounds` says where each level begins in it.
    """

    def __init__(self, space: Space) -> None:
        from scipy.sparse import coo_matrix
        from scipy.sparse.csgraph import connected_components

        size = len(space)
        links = coo_matrix((np.ones(len(space.source), dtype=np.int8), (space.source, space.target)), (size, size))
        self.count, of = connected_components(links.tocsr(), directed=True, connection="strong")
        self.of: Integers = of.astype(np.int64)
        self.sizes = np.bincount(self.of, minlength=self.count)
        levels = self._levels(space)
        self.level = levels[self.of]
        self.order = np.lexsort((self.of, self.level))
        self.bounds = np.searchsorted(self.level[self.order], np.arange(int(levels.max()) + 2))

    def _levels(self, space: Space) -> Integers:
        """The level of each class: one more than the greatest to which a step leads."""
        one, two = self.of[space.source], self.of[space.target]
        apart = one != two
        key = np.unique(one[apart] * self.count + two[apart])
        one, two = key // self.count, key % self.count
        order = np.argsort(two, kind="stable")
        before, ends = one[order], np.searchsorted(two[order], np.arange(self.count + 1))
        left = np.bincount(one, minlength=self.count)
        levels = np.zeros(self.count, dtype=np.int64)
        todo, now = np.nonzero(left == 0)[0], 0
        while len(todo):
            levels[todo] = now
            sizes = ends[todo + 1] - ends[todo]
            at = np.repeat(ends[todo] - np.cumsum(sizes) + sizes, sizes) + np.arange(int(sizes.sum()))
            np.subtract.at(left, before[at], 1)
            todo = np.unique(before[at])
            todo, now = todo[left[todo] == 0], now + 1
        return levels

    @property
    def closed(self) -> list[Integers]:
        """The crowds of each closed class."""
        low = self.order[: self.bounds[1]]
        cuts = np.nonzero(np.diff(self.of[low]))[0] + 1
        return [np.sort(part) for part in np.split(low, cuts)]

    def is_alone(self, low: int, high: int) -> bool:
        """Whether each crowd in this part of the order is a class by itself."""
        return bool((self.sizes[self.of[self.order[low:high]]] == 1).all())

    @property
    def largest(self) -> int:
        """The most crowds of a class that isn't closed; 0 where all are closed."""
        open_ = self.sizes[np.unique(self.of[self.order[self.bounds[1] :]])]
        return int(open_.max()) if len(open_) else 0
