"""Points that meet the facts of a branch, and multipliers where there is none. Floats propose; integers decide."""
from __future__ import annotations

from fractions import Fraction
from math import gcd, lcm
from typing import Sequence

import numpy as np

from ..proof.facts import AT_LEAST, DIVIDES, EQUAL
from ..proof.bundles import SIZE_LIMIT
from .frames import Frame, all_items, meets
from .columns import ROUNDS, Columns, Program
from .highs import FOUND, NO_TIME, NONE, Matrix, Outcome, matrix_of, minimise
from ..proof.items import Array, Case, Cases, Item, Ref, Row, Zeros
from .trees import Terms

DENOMINATORS = (60, 2_000, 1_000_000)  # the multipliers' greatest ones that are tried
SCALES = (1, 2, 3, 4, 5, 6, 8, 10, 12, 20, 30, 60)  # that are tried before fractions are made
CLOSE = 1e-7
TINY = 1e-9
# variables at most of a program that is made smaller first: that costs time, but its points make smaller trees
PRESOLVED = 1_500
WHOLE_SECONDS = 4.0
EAGER = 10.0  # what a move is worth that is to be taken once, where an agent costs 1
SAFE = 1 << 52  # sums up to here are exact in floats


class Trouble(Exception):
    """The numbers went wrong: the solver and the exact check disagree."""


class Solver:
    """Programs over one leaf's variables; a branch is the line of frames up to a frame."""

    def __init__(self, cases: Cases) -> None:
        self.cases = cases
        self.calls = 0
        flow = cases.space.flow()
        rows = [q for q, fact in enumerate(flow) for _ in fact.terms]
        columns = [a for fact in flow for a, _ in fact.terms]
        numbers = [float(k) for fact in flow for _, k in fact.terms]
        self.flow: Matrix = matrix_of(rows, columns, numbers, cases.states, cases.variables)
        self.flow_at = np.array([-fact.constant for fact in flow], dtype=float)
        self.presolve = cases.variables <= PRESOLVED
        self.columns = None if self.presolve else Columns(cases.first_move, cases.variables)
        self.cost = np.concatenate(
            [np.full(cases.inputs, 1.0), np.full(cases.states, 0.01), np.full(cases.moves, 0.1)]
        )

    def _extended(self, rows: Sequence[Row], wider: int) -> Matrix:
        if not rows:
            return self.flow.with_rows(np.zeros(0, dtype=int), np.zeros(0, dtype=int), np.zeros(0), 0, wider)
        at = np.repeat(np.arange(len(rows)), [len(row.variables) for row in rows])
        return self.flow.with_rows(
            at,
            np.concatenate([row.variables for row in rows]),
            np.concatenate([row.numbers for row in rows]).astype(float),
            len(rows),
            wider,
        )

    def point(self, line: Sequence[Frame], cost: Array | None = None, eager: Array | None = None) -> Array | None:
        """A point that meets all facts but congruences, or None. Where it is possible, one that takes many of the
        `eager` moves once."""
        top = line[-1]
        if top.is_false:
            return None
        rows = [row for frame in line[1:] for row in frame.rows] + [
            row for row in line[0].rows if row.kind == AT_LEAST
        ]
        low = np.concatenate([self.flow_at, [-row.constant for row in rows]])
        high = np.concatenate([self.flow_at, [-row.constant if row.kind == EQUAL else np.inf for row in rows]])
        matrix = self._extended(rows, 0)
        most = np.maximum(top.most, top.least)
        if eager is not None:
            wish, once = self.cost.copy(), most.copy()
            wish[eager] = -EAGER
            once[eager] = np.maximum(np.minimum(most[eager], 1), top.least[eager])
            got = self._best(Program(wish, matrix, low, high, top.least, once), ROUNDS)
            if got.status == FOUND:
                return got.point
        got = self._best(Program(self.cost if cost is None else cost, matrix, low, high, top.least, most))
        if got.status == FOUND:
            return got.point
        if got.status == NONE:
            return None
        if cost is not None and np.any(cost):
            return self.point(line, np.zeros(self.cases.variables))
        raise Trouble(f"the solver gave up: {got.message}")

    def _best(self, program: Program, rounds: int | None = None) -> Outcome:
        """What comes of a program in fractions; of a large one, by few columns."""
        self.calls += 1
        if self.columns is not None:
            return self.columns.best(program, rounds)
        return program.solved(self.presolve)

    def whole_point(self, line: Sequence[Frame], seconds: float = WHOLE_SECONDS) -> Array | None:
        """A point in whole numbers that meets all facts, congruences too; None where none was found."""
        top = line[-1]
        if top.is_false:
            return None
        rows = [row for frame in line[1:] for row in frame.rows] + [
            row for row in line[0].rows if row.kind == AT_LEAST
        ]
        mods = [row for frame in line for row in frame.mods]
        n = self.cases.variables
        made = [
            Row(row.kind, np.append(row.variables, n + i), np.append(row.numbers, -row.modulus), row.constant)
            for i, row in enumerate(mods)
        ]
        low = [-row.constant for row in rows] + [
            -row.constant if row.kind == DIVIDES else 1 - row.constant for row in mods
        ]
        high = [-row.constant if row.kind == EQUAL else np.inf for row in rows]
        high += [-row.constant if row.kind == DIVIDES else row.modulus - 1 - row.constant for row in mods]
        matrix = self._extended([*rows, *made], len(mods))
        free = np.full(len(mods), np.inf)
        self.calls += 1
        got = minimise(
            np.concatenate([self.cost, np.zeros(len(mods))]),
            matrix,
            np.concatenate([self.flow_at, low]),
            np.concatenate([self.flow_at, high]),
            np.concatenate([top.least, -free]),
            np.concatenate([np.maximum(top.most, top.least), free]),
            whole=True,
            seconds=seconds,
        )
        if got.status != FOUND:
            if got.status not in (NONE, NO_TIME):
                raise Trouble(f"the solver gave up: {got.message}")
            return None
        point = np.rint(got.point[:n])
        if not all(meets(point, frame.items) for frame in line):
            raise Trouble("the integer solver's point is wrong")
        return point

    def sums(self, items: Sequence[Item]) -> Terms:
        """Multipliers of a `lin` over these facts, few and small; Trouble where none are found.

        They are the duals of: how far can the facts be met, scaled by a factor, where each may fail by its price?
        """
        for item in items:
            if (
                isinstance(item, Row)
                and not len(item.variables)
                and item.kind in (AT_LEAST, EQUAL)
                and (item.constant < 0 or (item.kind == EQUAL and item.constant))
            ):
                return [((item, 0), -1 if item.constant > 0 else 1)]
        rows = [
            item for item in items if isinstance(item, Row) and item.kind in (AT_LEAST, EQUAL) and len(item.variables)
        ]
        zeros = [item for item in items if isinstance(item, Zeros)]
        found = self._duals(rows, zeros)
        pairs = [(row, float(v)) for row, v in zip(rows, found) if abs(v) > TINY]
        for size in DENOMINATORS:
            terms = _rounded(pairs, size)
            if terms is not None:
                closed = completed(terms, zeros, self.cases.variables)
                if closed is not None:
                    return closed
        raise Trouble("the multipliers are too great for floats")

    def _duals(self, rows: Sequence[Row], zeros: Sequence[Zeros]) -> Array:
        n = self.cases.variables
        own = np.arange(len(rows))
        at = np.concatenate([np.repeat(own, [len(row.variables) for row in rows]), own])
        columns = np.concatenate([*(row.variables for row in rows), np.full(len(rows), n)])
        numbers = np.concatenate([*(row.numbers for row in rows), [row.constant for row in rows]]).astype(float)
        matrix = matrix_of(at, columns, numbers, len(rows), n + 1)
        prices = np.array([row.price for row in rows])
        most = np.full(n + 1, np.inf)
        for block in zeros:
            most[block.variables] = np.minimum(most[block.variables], block.price)
        cost = np.zeros(n + 1)
        cost[-1] = -1
        high = np.array([row.price if row.kind == EQUAL else np.inf for row in rows])
        program = Program(cost, matrix, -prices, high, np.zeros(n + 1), most)
        got = self.columns.best(program) if self.columns is not None else program.solved()
        self.calls += 1
        if got.status != FOUND or got.duals is None:
            raise Trouble(f"no multipliers: {got.message}")
        return got.duals


def _times(pairs: Sequence[tuple[Row, float]]) -> list[tuple[Row, int]] | None:
    """The multipliers times the least of some numbers that makes all of them whole, if one does."""
    values = np.array([v for _, v in pairs])
    least = np.abs(values).min(initial=1.0)
    for scale in (*SCALES, 1 / least):
        whole = np.rint(values * scale)
        if (np.abs(values * scale - whole) < CLOSE).all():
            return [(row, k) for (row, _), k in zip(pairs, whole.astype(np.int64).tolist()) if k]
    return None


def _fractions(pairs: Sequence[tuple[Row, float]], size: int) -> list[tuple[Row, int]]:
    """The multipliers as fractions of small numbers, times what makes them whole."""
    exact = [(row, Fraction(v).limit_denominator(size)) for row, v in pairs]
    scale = lcm(*(v.denominator for _, v in exact)) if exact else 1
    return [(row, int(v * scale)) for row, v in exact if v]


def _rounded(pairs: Sequence[tuple[Row, float]], size: int) -> list[tuple[Row, int]] | None:
    whole = _times(pairs) or _fractions(pairs, size)
    common = gcd(*(v for _, v in whole)) if whole else 1
    whole = [(row, v // common) for row, v in whole]
    if not whole or any(abs(v) > SIZE_LIMIT or (row.kind == AT_LEAST and v < 0) for row, v in whole):
        return None
    return whole


def added(rows: Sequence[tuple[Row, int]], variables: int) -> tuple[Array, int]:
    """The sum of rows times numbers: coefficients, and the constant, exactly."""
    small = sum(abs(k) * int(np.abs(row.numbers).max(initial=0)) for row, k in rows) < SAFE
    constant = sum(k * row.constant for row, k in rows)
    if not rows:
        return np.zeros(variables, dtype=np.int64), constant
    at = np.concatenate([row.variables for row, _ in rows])
    if small:
        numbers = np.concatenate([row.numbers * k for row, k in rows])
        return np.bincount(at, numbers, variables).astype(np.int64), constant
    total = np.zeros(variables, dtype=object)
    np.add.at(total, at, np.concatenate([row.numbers.astype(object) * k for row, k in rows]))
    return total, constant


def completed(terms: Sequence[tuple[Row, int]], zeros: Sequence[Zeros], variables: int) -> Terms | None:
    """The terms, with the facts that a variable is 0 for each coefficient above 0; None where they don't close."""
    total, constant = added(terms, variables)
    if constant > -1:
        return None
    out: list[tuple[Ref, int]] = [((row, 0), k) for row, k in terms]
    left = total > 0
    for block in zeros:
        if not left.any():
            break
        for at in np.nonzero(left[block.variables])[0].tolist():
            a = int(block.variables[at])
            if int(total[a]) > SIZE_LIMIT:
                return None
            out.append(((block, at), -int(total[a])))
            left[a] = False
    return None if left.any() else out


def closing_terms(solver: Solver, line: Sequence[Frame], extra: Case) -> Terms:
    """Multipliers over the facts of a line and more."""
    return solver.sums([*all_items(line), *extra])
