"""The linear equations of a chain, level by level, so that only crowds that lead to each other are solved at once."""
from __future__ import annotations

from typing import Callable

import numpy as np
from numpy.typing import NDArray

from .band import Band
from .classes import Classes
from .space import Space, TooLarge

WORK_LIMIT = 5_000_000_000  # products of all eliminations
CELL_LIMIT = 80_000_000  # numbers that they keep
Floats = NDArray[np.float64]


class Equations:
    """I - P of the crowds that aren't in closed classes, by levels; P has the chances of a meeting's steps.

    TooLarge is raised before the memory for an elimination is taken.
    """

    def __init__(self, space: Space, classes: Classes, each: Callable[[str], None] = lambda told: None) -> None:
        from scipy.sparse import coo_matrix

        self.each = each
        size = len(space)
        self.place = np.empty(size, dtype=np.int64)
        self.place[classes.order] = np.arange(size)
        self.order, self.bounds = classes.order, classes.bounds
        rows, columns = self.place[space.source], self.place[space.target]
        chances = space.weight() / float(space.scale)
        self.rows = coo_matrix((chances, (rows, columns)), (size, size)).tocsr()
        self.into = self.rows.T.tocsr()
        self.leaving: Floats = np.zeros(size)
        np.add.at(self.leaving, rows, chances)
        self.bands: list[Band | None] = [None]
        work = cells = 0
        for level in range(1, len(self.bounds) - 1):
            low, high = self.bounds[level], self.bounds[level + 1]
            band = None
            if not classes.is_alone(low, high):
                out = np.asarray(self.rows[low:high, :low].sum(axis=1)).ravel()
                band = Band(self.rows[low:high, low:high], out)
                work, cells = work + band.work, cells + band.cells
            self.bands.append(band)
        if work > WORK_LIMIT or cells > CELL_LIMIT:
            raise TooLarge

    def eliminate(self) -> None:
        """Makes what all solutions need."""
        for level, band in enumerate(self.bands):
            if band is not None and not band.is_ready:
                self.each(f"level {level:,} of {len(self.bands) - 1:,}")
                band.eliminate()

    def backward(self, right: Floats) -> Floats:
        """x with (I - P) x = right, where x is known at closed classes: there `right` has it. Both by crowd."""
        found: Floats = right[self.order].astype(float)
        for level in range(1, len(self.bands)):
            low, high = self.bounds[level], self.bounds[level + 1]
            part, band = found[low:high] + self.rows[low:high, :low] @ found[:low], self.bands[level]
            found[low:high] = part / self.leaving[low:high] if band is None else band.solve(part)
        return found[self.place]

    def visits(self, start: int) -> Floats:
        """How often each crowd is expected, from one on, before a closed class is entered; of crowds in closed
        classes, the chance that this one is the first of them."""
        found = np.zeros(len(self.order))
        found[self.place[start]] = 1.0
        for level in range(len(self.bands) - 1, 0, -1):
            low, high = self.bounds[level], self.bounds[level + 1]
            part, band = found[low:high] + self.into[low:high, high:] @ found[high:], self.bands[level]
            found[low:high] = part / self.leaving[low:high] if band is None else band.solve_left(part)
        low = self.bounds[1]
        found[:low] += self.into[:low, low:] @ found[low:]
        return found[self.place]

    def after(self, start: int, meetings: int) -> Floats:
        """The distribution after so many meetings."""
        now = np.zeros(len(self.order))
        now[self.place[start]] = 1.0
        stays = 1 - self.leaving
        for done in range(meetings):
            self.each(f"{done:,} of {meetings:,} meetings")
            now = now * stays + self.into @ now
        return now[self.place]
