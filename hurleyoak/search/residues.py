"""Linear algebra modulo m for `residue`: equations and congruences in Howell form, with the row operations recorded.

Complete by duality over the integers modulo m: where no sum closes, some counts modulo m meet all facts.
"""
from __future__ import annotations

from dataclasses import dataclass
from math import gcd, log2
from typing import Sequence

import numpy as np

from ..proof.facts import DIVIDES, EQUAL, NOT_DIVIDES
from .highs import sparse
from ..proof.items import Array, Item, Ref, Row, Zeros
from .trees import RestSum, Terms


SPARE = 40  # random sums of columns beyond those that count wrong sums
MIXED = 3  # sums in which each column stands
SEED = 7


def _euclid(a: int, b: int) -> tuple[int, int, int]:
    """(g, s, t) with s*a + t*b = g, the greatest common divisor."""
    s0, s1, t0, t1 = 1, 0, 0, 1
    while b:
        k = a // b
        a, b, s0, s1, t0, t1 = b, a - k * b, s1, s0 - k * s1, t1, t0 - k * t1
    return a, s0, t0


def _eliminated(work: Array, column: int, m: int) -> Array:
    """Makes a column zero but for one row, by steps that can be undone; gives that row and leaves zeros in its
    place."""
    live = np.nonzero(work[:, column])[0]
    values = work[live, column]
    divisors = np.gcd(values, m)
    first = int(live[divisors.argmin()])
    for i in live:
        a, b = int(work[first, column]), int(work[i, column])
        if i == first or not b:
            continue
        g = gcd(a, m)
        if b % g == 0:  # a multiple modulo m: the others like it go in one step
            factor = (work[live, column] // g) * (pow(a // g, -1, m // g) if m > g else 0) % m
            factor[(work[live, column] % g != 0) | (live == first)] = 0
            work[live] = (work[live] - factor[:, None] * work[first]) % m
        else:
            g, s, t = _euclid(a, b)
            x, y = work[first].copy(), work[i].copy()
            work[first], work[i] = (s * x + t * y) % m, ((a // g) * y - (b // g) * x) % m
    row: Array = work[first].copy()
    work[first] = 0
    return row


@dataclass
class _Known:
    """Variables that one fact gives modulo m: which, their values, and the facts."""

    mask: Array
    values: Array
    refs: dict[int, tuple[Ref, int]]


def _known(items: Sequence[Item], m: int, variables: int) -> tuple[_Known, list[Row], list[Row]]:
    """The variables known by a fact of their own, the other rows, and the facts that m doesn't divide something."""
    known = _Known(np.zeros(variables, dtype=bool), np.zeros(variables, dtype=np.int64), {})
    rows: list[Row] = []
    denials: list[Row] = []
    for item in items:
        if isinstance(item, Zeros):
            for at, a in enumerate(item.variables.tolist()):
                if not known.mask[a]:
                    known.mask[a] = True
                    known.refs[a] = ((item, at), 1)
        elif item.kind == NOT_DIVIDES and item.modulus == m:
            denials.append(item)
        elif item.kind == EQUAL or (item.kind == DIVIDES and item.modulus == m):
            a = int(item.variables[0]) if len(item.variables) == 1 else -1
            if a >= 0 and not known.mask[a] and gcd(int(item.numbers[0]), m) == 1:
                inverse = pow(int(item.numbers[0]), -1, m)
                known.mask[a], known.values[a], known.refs[a] = (
                    True,
                    -item.constant * inverse % m,
                    ((item, 0), inverse),
                )
            else:
                rows.append(item)
    return known, rows, denials


def _fewer(columns: Array, m: int) -> Array:
    """Columns on which a sum is zero where it is zero on all the given ones. They are the different ones, or random
    sums of very many. There are enough of these to let no wrong sum pass (`closes` would find it out)."""
    columns = columns[:, columns.any(axis=0)]
    rows, count = columns.shape
    wanted = int(rows * log2(m)) + SPARE
    if count > 2 * wanted:
        rng = np.random.default_rng(SEED)
        at = (np.tile(np.arange(count), MIXED), rng.integers(0, wanted, MIXED * count))
        mixing = sparse.csr_matrix((rng.integers(1, m, MIXED * count), at), shape=(count, wanted))
        return np.asarray((mixing.T @ columns.T).T % m, dtype=np.int64)
    if count < 2:
        return columns
    marks = np.random.default_rng(SEED).integers(1, 1 << 62, rows) @ columns
    return columns[:, np.unique(marks, return_index=True)[1]]


def _howell(work: Array, width: int, m: int) -> tuple[list[Array], list[tuple[int, Array]]]:
    """Of rows modulo m: sums of them whose first `width` columns are zero, which give all others such, and the pivots
    with their rows."""
    bare: list[Array] = []
    pivots: list[tuple[int, Array]] = []
    while len(work):
        left = np.nonzero(work[0, :width])[0]
        if not len(left):
            bare.append(work[0])
            work = work[1:]
            continue
        column = int(left[0])
        row = _eliminated(work, column, m)
        pivots.append((column, row))
        rest = row * (m // gcd(int(row[column]), m)) % m  # zero where the pivot is a unit
        if rest.any():
            work = np.concatenate([work, rest[None]])
    return bare, pivots


class Residues:
    """Looks for a `residue` over one leaf's variables. What rows say without the moves that may be taken is worked out
    once."""

    def __init__(self, variables: int, first_move: int) -> None:
        self.variables, self.first_move = variables, first_move
        self._bare: dict[tuple[int, tuple[int, ...], bytes], tuple[list[Row], Array]] = {}

    def _has_moves(self, row: Row) -> bool:
        return bool(row.variables.max(initial=-1) >= self.first_move)

    def _moveless(self, rows: list[Row], taken: Array, m: int) -> Array:
        """Multipliers of sums of the rows in which no move stands of a mask; they give all others such."""
        key = m, tuple(map(id, rows)), taken.tobytes()
        if key not in self._bare:
            full = np.zeros((len(rows), self.variables), dtype=np.int64)
            for i, row in enumerate(rows):
                full[i, row.variables] = row.numbers % m
            columns = _fewer(full[:, self.first_move :][:, taken], m)
            bare, _ = _howell(
                np.concatenate([columns, np.eye(len(rows), dtype=np.int64)], axis=1), columns.shape[1], m
            )
            made = np.array(bare, dtype=np.int64).reshape(len(bare), columns.shape[1] + len(rows))[
                :, columns.shape[1] :
            ]
            self._bare[key] = list(rows), made  # (the rows are kept, so that no other one gets the same id)
        return self._bare[key][1]

    def closing(self, items: Sequence[Item], m: int) -> RestSum | None:
        """The `residue m` that closes a branch with these facts, or None where there is none."""
        known, rows, denials = _known(items, m, self.variables)
        taken = ~known.mask[self.first_move :]
        moving = [row for row in rows if self._has_moves(row)]
        rows = moving + [row for row in rows if not self._has_moves(row)]
        bare = self._moveless(moving, taken, m)
        n = len(rows)
        first = np.zeros((len(bare) + n - len(moving), n), dtype=np.int64)
        first[: len(bare), : len(moving)] = bare
        first[len(bare) :, len(moving) :] = np.eye(n - len(moving), dtype=np.int64)
        system = _System(rows, [row for row in denials if not self._has_moves(row)], known, first, m, self.first_move)
        return system.closing(self.variables)


class _System:
    """Sums of rows in which no move stands, and facts that m doesn't divide something, over the other variables modulo
    m."""

    def __init__(self, rows: list[Row], denials: list[Row], known: _Known, first: Array, m: int, width: int) -> None:
        self.rows, self.denials, self.known, self.m = rows, denials, known, m
        full = np.zeros((len(rows) + len(denials), width), dtype=np.int64)
        for i, row in enumerate([*rows, *denials]):
            still = row.variables < width
            full[i, row.variables[still]] = row.numbers[still] % m
        mask, values = known.mask[:width], known.values[:width]
        constants = (
            np.array([row.constant % m for row in [*rows, *denials]], dtype=np.int64) + full[:, mask] @ values[mask]
        ) % m
        free = np.concatenate([full[:, ~mask], constants[:, None]], axis=1)
        self.width = free.shape[1] - 1
        self.goals = free[len(rows) :]
        work = np.concatenate([first @ free[: len(rows)] % m, first], axis=1)
        self.bare, self.pivots = _howell(work, self.width, m)

    def closing(self, variables: int) -> RestSum | None:
        """What closes, if something does."""
        w, m, n = self.width, self.m, len(self.rows)
        for row in self.bare:
            if row[w] % m:
                return RestSum(m, self._terms(row[w + 1 :], None, variables))
        for goal, denied in zip(self.goals, self.denials):
            left = np.concatenate([goal, np.zeros(n, dtype=np.int64)])
            for column, row in self.pivots:
                k, p = int(left[column]) % m, int(row[column])
                g = gcd(p, m)
                if k % g:
                    break
                z = (k // g) * pow(p // g, -1, m // g) if m > g else 0
                left = (left - z * row) % m
            if not left[: w + 1].any():
                return RestSum(m, self._terms(-left[w + 1 :], denied, variables), denied)
        return None

    def _terms(self, multipliers: Array, goal: Row | None, variables: int) -> Terms:
        """The rows times their multipliers, with the facts of the known variables that are left."""
        m = self.m
        over = np.zeros(variables, dtype=np.int64)
        out: list[tuple[Ref, int]] = []
        for row, k in zip(self.rows, (multipliers % m).tolist()):
            if k:
                out.append(((row, 0), k))
                over[row.variables] = (over[row.variables] + row.numbers % m * k) % m
        if goal is not None:
            over[goal.variables] = (over[goal.variables] - goal.numbers) % m
        for a in np.nonzero(self.known.mask & (over != 0))[0].tolist():
            ref, inverse = self.known.refs[a]
            out.append((ref, int(-over[a]) * inverse % m))
        return [(ref, k - m if 2 * k > m else k) for ref, k in out if k % m]


def closes(kind: RestSum, variables: int) -> bool:
    """The checker's rule, in exact numbers."""
    m = kind.modulus
    total = np.zeros(variables, dtype=object)
    constant = 0
    for (item, at), k in kind.terms:
        if isinstance(item, Zeros):
            total[item.variables[at]] += k
        else:
            total[item.variables] += item.numbers.astype(object) * k
            constant += item.constant * k
    if kind.denied is None:
        return bool(constant % m) and not (total % m).any()
    assert isinstance(kind.denied, Row)
    total[kind.denied.variables] -= kind.denied.numbers.astype(object)
    return (constant - kind.denied.constant) % m == 0 and not (total % m).any()
