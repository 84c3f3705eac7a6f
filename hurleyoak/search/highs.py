"""Linear and integer programs by HiGHS (Debian's python3-scipy), called without scipy's detours where that is
possible."""
from __future__ import annotations

import warnings
from dataclasses import dataclass
from enum import Enum
from typing import Any

from ..faults import InputFault
from .limits import worked

try:
    import numpy as np
    from scipy import sparse as sparse
    from scipy.optimize import Bounds, LinearConstraint, linprog, milp
except ImportError:
    raise InputFault("pop: this command needs SciPy: apt-get install python3-scipy") from None

try:
    from scipy.optimize._highs._highs_wrapper import _highs_wrapper
except ImportError:
    _highs_wrapper = None

Array = Any  # numpy's arrays have no types in Debian's mypy


class Solved(Enum):
    """What came of a program."""

    FOUND = "found"
    NONE = "none"
    UNBOUNDED = "unbounded"
    NO_TIME = "no time"


FOUND, NONE, UNBOUNDED, NO_TIME = Solved.FOUND, Solved.NONE, Solved.UNBOUNDED, Solved.NO_TIME
OPTIMAL, INFEASIBLE, UNBOUNDED_OR_NOT, UNBOUNDED_STATUS, TIME_LIMIT = 7, 8, 9, 10, 13


@dataclass
class Matrix:
    """A sparse matrix by columns."""

    starts: Array
    rows: Array
    numbers: Array
    height: int

    @property
    def width(self) -> int:
        """How many columns it has."""
        return len(self.starts) - 1

    def with_rows(self, rows: Array, columns: Array, numbers: Array, more: int, wider: int = 0) -> "Matrix":
        """The matrix with `more` rows below and `wider` empty columns behind, and these entries in them."""
        starts = (
            np.concatenate([self.starts, np.full(wider, self.starts[-1], dtype=self.starts.dtype)])
            if wider
            else self.starts
        )
        order = np.lexsort((rows, columns))
        rows, columns, numbers = rows[order], columns[order], numbers[order]
        at = starts[columns + 1]
        counts = np.cumsum(np.bincount(columns, minlength=len(starts) - 1))
        moved = starts.copy()
        moved[1:] += counts.astype(starts.dtype)
        return Matrix(
            moved,
            np.insert(self.rows, at, rows + self.height),
            np.insert(self.numbers, at, numbers),
            self.height + more,
        )


@dataclass
class Outcome:
    """What came of a program: the point, and the multipliers of its rows where they were asked for."""

    status: Solved
    point: Array = None
    duals: Array = None
    message: str = ""


def matrix_of(rows: Array, columns: Array, numbers: Array, height: int, width: int) -> Matrix:
    """A matrix of entries."""
    made = sparse.csc_matrix((numbers, (rows, columns)), shape=(height, width))
    made.sort_indices()
    return Matrix(made.indptr.astype(np.int32), made.indices.astype(np.int32), made.data.astype(float), height)


def minimise(
    cost: Array,
    matrix: Matrix,
    low: Array,
    high: Array,
    least: Array,
    most: Array,
    whole: bool = False,
    seconds: float | None = None,
    presolve: bool = True,
) -> Outcome:
    """The least cost with `low <= matrix * x <= high` and `least <= x <= most`; with `whole`, in integers; `seconds`
    of the processor."""
    if seconds is None:
        return _minimised(cost, matrix, low, high, least, most, whole, None, presolve)

    def made(wall: float) -> Outcome:
        return _minimised(cost, matrix, low, high, least, most, whole, wall, presolve)

    return worked(seconds, made, _is_cut)


def _is_cut(out: Outcome) -> bool:
    return out.status == NO_TIME


def _minimised(
    cost: Array,
    matrix: Matrix,
    low: Array,
    high: Array,
    least: Array,
    most: Array,
    whole: bool,
    seconds: float | None,
    presolve: bool,
) -> Outcome:
    """The same with seconds by the wall."""
    if _highs_wrapper is None:
        return _by_scipy(cost, matrix, low, high, least, most, whole, seconds)
    options: dict[str, Any] = {"presolve": presolve, "output_flag": False, "log_to_console": False}
    if seconds is not None:
        options["time_limit"] = float(seconds)
    kinds = np.ones(len(cost), dtype=np.uint8) if whole else np.empty(0, dtype=np.uint8)
    with warnings.catch_warnings():
        warnings.simplefilter("ignore")
        got = _highs_wrapper(
            np.ascontiguousarray(cost, dtype=float),
            matrix.starts.astype(np.int32),
            matrix.rows.astype(np.int32),
            matrix.numbers.astype(float),
            np.ascontiguousarray(low, dtype=float),
            np.ascontiguousarray(high, dtype=float),
            np.ascontiguousarray(least, dtype=float),
            np.ascontiguousarray(most, dtype=float),
            kinds,
            options,
        )
    point = got.get("x")
    if got["status"] == OPTIMAL or (whole and point is not None):
        return Outcome(FOUND, np.array(point), np.array(got["lambda"]) if not whole and "lambda" in got else None)
    status = {INFEASIBLE: NONE, UNBOUNDED_OR_NOT: UNBOUNDED, UNBOUNDED_STATUS: UNBOUNDED}.get(got["status"], NO_TIME)
    return Outcome(status, message=str(got.get("message")))


def _by_scipy(
    cost: Array, matrix: Matrix, low: Array, high: Array, least: Array, most: Array, whole: bool, seconds: float | None
) -> Outcome:
    """The same by scipy's public functions, for versions that have no wrapper of this kind."""
    made = sparse.csc_matrix((matrix.numbers, matrix.rows, matrix.starts), shape=(matrix.height, matrix.width))
    if whole:
        got = milp(
            cost,
            integrality=np.ones(len(cost)),
            bounds=Bounds(least, most),
            constraints=LinearConstraint(made, low, high),
            options={"time_limit": seconds} if seconds else None,
        )
        return (
            Outcome(FOUND, np.array(got.x))
            if got.x is not None
            else Outcome({2: NONE, 3: UNBOUNDED}.get(got.status, NO_TIME), message=got.message)
        )
    upper, lower = np.isfinite(high), np.isfinite(low)
    stacked = sparse.vstack([made[upper], -made[lower]])
    got = linprog(
        cost,
        A_ub=stacked,
        b_ub=np.concatenate([high[upper], -low[lower]]),
        bounds=np.stack([least, most], axis=1),
        method="highs",
    )
    if got.x is None or got.status:
        return Outcome({2: NONE, 3: UNBOUNDED, 4: UNBOUNDED}.get(got.status, NO_TIME), message=got.message)
    duals = np.zeros(matrix.height)
    duals[upper] += got.ineqlin.marginals[: int(upper.sum())]
    duals[lower] -= got.ineqlin.marginals[int(upper.sum()) :]
    return Outcome(FOUND, np.array(got.x), duals)
