"""Linear equations of a chain's crowds that lead to each other, without a subtraction (Grassmann, Taksar, Heyman 1985).

Each unknown is right to some 13 digits, however rarely the crowds are left: a mean of 10^100 meetings too.
"""
from __future__ import annotations

from typing import Any

import numpy as np
from numpy.lib.stride_tricks import as_strided
from numpy.typing import NDArray

Floats = NDArray[np.float64]


class Band:
    """The matrix D - Q of some crowds. Q has the chances of steps among them, and `out` those of steps that leave
    them. D has on its diagonal what both add up to.

    The crowds are in an order in which steps are short, at most `width` places; they are eliminated from the last on.
    """

    def __init__(self, inside: Any, out: Floats) -> None:
        self.inside, self.out = inside, out
        self.order, self.width = narrow(inside)
        self.is_ready = False

    @property
    def work(self) -> int:
        """How many products the elimination takes."""
        return len(self.order) * self.width * self.width

    @property
    def cells(self) -> int:
        """How many numbers it keeps."""
        return len(self.order) * (2 * self.width + 1)

    def eliminate(self) -> None:
        """Makes the factors."""
        size, width = len(self.order), self.width
        place = np.empty(size, dtype=np.int64)
        place[self.order] = np.arange(size)
        entries = self.inside.tocoo()
        rows, columns = place[entries.row], place[entries.col]
        cell = np.zeros((size + width, 2 * width + 1))  # (the first rows stand for no crowd)
        np.add.at(cell, (rows + width, columns - rows + width), entries.data)
        # (in a band, a row down and a column to the right is one row more: so its squares are views)
        step = cell.itemsize
        self.at = as_strided(cell[width, width:], (size, size), (2 * width * step, step))
        left = self.out[self.order].astype(float)
        self.sums = np.empty(size)
        for k in range(size - 1, -1, -1):
            low = max(0, k - width)
            row, column = self.at[k, low:k], self.at[low:k, k]
            self.sums[k] = total = float(row.sum()) + left[k]
            column /= total
            self.at[low:k, low:k] += np.multiply.outer(column, row)
            left[low:k] += column * left[k]
        self.is_ready = True

    def solve(self, right: Floats) -> Floats:
        """x with (D - Q) x = right."""
        part, width = right[self.order].astype(float), self.width
        for k in range(len(part) - 1, 0, -1):
            low = max(0, k - width)
            part[low:k] += self.at[low:k, k] * part[k]
        for k in range(len(part)):
            low = max(0, k - width)
            part[k] = (part[k] + self.at[k, low:k] @ part[low:k]) / self.sums[k]
        return self._back(part)

    def solve_left(self, right: Floats) -> Floats:
        """x with x (D - Q) = right."""
        part, width = right[self.order].astype(float), self.width
        for k in range(len(part) - 1, -1, -1):
            low = max(0, k - width)
            part[k] /= self.sums[k]
            part[low:k] += self.at[k, low:k] * part[k]
        for k in range(1, len(part)):
            low = max(0, k - width)
            part[k] += self.at[low:k, k] @ part[low:k]
        return self._back(part)

    def _back(self, part: Floats) -> Floats:
        out = np.empty_like(part)
        out[self.order] = part
        return out


def narrow(inside: Any) -> tuple[NDArray[np.int64], int]:
    """An order in which steps are short, and how many places the longest goes."""
    from scipy.sparse.csgraph import reverse_cuthill_mckee

    both = (inside + inside.T).tocsr()
    order = reverse_cuthill_mckee(both, symmetric_mode=True).astype(np.int64)
    place = np.empty(len(order), dtype=np.int64)
    place[order] = np.arange(len(order))
    entries = both.tocoo()
    far = np.abs(place[entries.row] - place[entries.col])
    return order, int(far.max()) if len(far) else 0
