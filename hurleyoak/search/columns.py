"""Programs of many columns, solved with few of them: those that were of use before, and those that the prices of the
rows ask for.

A column that stays out is 0. If no column that is out would lower the cost, the point is the best of all. The
columns that are in may not meet the rows. If none that is out would bring them nearer, the rows can't be met at all.
"""
from __future__ import annotations

from dataclasses import dataclass

import numpy as np

from ..proof.items import Array
from .highs import FOUND, NONE, Matrix, Outcome, minimise, sparse

MORE = 200  # columns that come in at once
KEPT = 60  # programs for which a column stays in that was of no use
ROUNDS = 3  # for a point that need not be the best
NEAR = 1e-7


@dataclass
class Program:
    """Least cost with `low <= matrix * x <= high` and `least <= x <= most`."""

    cost: Array
    matrix: Matrix
    low: Array
    high: Array
    least: Array
    most: Array

    def solved(self, presolve: bool = True) -> Outcome:
        """What comes of it with all columns."""
        return minimise(self.cost, self.matrix, self.low, self.high, self.least, self.most, presolve=presolve)

    def prices(self, cost: Array, duals: Array) -> Array:
        """What each column would change of a cost, at these prices of the rows."""
        shape = (self.matrix.height, self.matrix.width)
        made = sparse.csc_matrix((self.matrix.numbers, self.matrix.rows, self.matrix.starts), shape=shape)
        return cost - made.T.dot(duals)


class Columns:
    """Remembers which columns were of use."""

    def __init__(self, always: int, width: int) -> None:
        self.last = np.full(width, -KEPT)
        self.always = always  # columns in front that are always in
        self.turn = 0

    def _start(self, program: Program) -> Array:
        self.turn += 1
        taken = self.last > self.turn - KEPT
        taken[: self.always] = True
        out = np.zeros(program.matrix.width, dtype=bool)
        out[: len(taken)] = taken[: len(out)]
        out[len(taken) :] = True
        return (out & (program.most > 0)) | (program.least > 0)

    def best(self, program: Program, rounds: int | None = None) -> Outcome:
        """What comes of a program; after some rounds, the point that was found last."""
        taken = self._start(program)
        while True:
            here = np.nonzero(taken)[0]
            got = _some(program, here).solved(presolve=False)
            is_met = got.status == FOUND
            if not is_met:  # (or the solver doesn't know)
                got = _nearest(program, here)
            if got.duals is None or (not is_met and got.point[len(here) :].sum() < NEAR):
                return program.solved(presolve=False)
            prices = program.prices(program.cost if is_met else np.zeros(program.matrix.width), got.duals)
            self._used(here[np.abs(prices[here]) < NEAR])
            worst = self._worst(program, prices, taken)
            if rounds is not None and is_met:
                rounds -= 1
            if not len(worst) or (rounds == 0 and is_met):
                return self._whole(program, here, got) if is_met else Outcome(NONE)
            taken[worst] = True
            self._used(worst)

    def _worst(self, program: Program, prices: Array, taken: Array) -> Array:
        out = np.nonzero(~taken & (program.most > 0) & (prices < -NEAR))[0]
        return out[np.argsort(prices[out])[:MORE]]

    def _used(self, columns: Array) -> None:
        self.last[columns[columns < len(self.last)]] = self.turn

    def _whole(self, program: Program, here: Array, got: Outcome) -> Outcome:
        point = np.zeros(program.matrix.width)
        point[here] = got.point
        return Outcome(FOUND, point, got.duals)


def _part(matrix: Matrix, columns: Array) -> Matrix:
    """Some columns of a matrix."""
    first, counts = matrix.starts[columns], matrix.starts[columns + 1] - matrix.starts[columns]
    starts = np.concatenate([[0], np.cumsum(counts)]).astype(matrix.starts.dtype)
    at = np.arange(starts[-1]) + np.repeat(first - starts[:-1], counts)
    return Matrix(starts, matrix.rows[at], matrix.numbers[at], matrix.height)


def _some(program: Program, here: Array) -> Program:
    part = _part(program.matrix, here)
    return Program(program.cost[here], part, program.low, program.high, program.least[here], program.most[here])


def _nearest(program: Program, here: Array) -> Outcome:
    """How near the rows are met: each may be missed on either side, at a cost of 1 for 1."""
    height, width = program.matrix.height, len(here)
    own = np.arange(height)
    part = _part(program.matrix, here)
    matrix = Matrix(
        np.concatenate([part.starts, part.starts[-1] + np.arange(1, 2 * height + 1)]).astype(part.starts.dtype),
        np.concatenate([part.rows, own, own]),
        np.concatenate([part.numbers, np.ones(height), -np.ones(height)]),
        height,
    )
    return minimise(
        np.concatenate([np.zeros(width), np.ones(2 * height)]),
        matrix,
        program.low,
        program.high,
        np.concatenate([program.least[here], np.zeros(2 * height)]),
        np.concatenate([program.most[here], np.full(2 * height, np.inf)]),
        presolve=False,
    )
