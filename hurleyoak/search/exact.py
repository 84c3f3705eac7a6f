"""The same programs in exact numbers, by z3 (Debian's python3-z3): slower, for numbers that are too great for
floats."""
from __future__ import annotations

from fractions import Fraction
from math import lcm
from typing import Any, Sequence

import numpy as np

from ..proof.facts import AT_LEAST, DIVIDES, EQUAL
from .frames import Frame, all_items
from .limits import Limit, clock, worked
from ..proof.items import Array, Cases, Item, Row, Zeros
from .solver import Solver, Trouble, completed
from .trees import Terms

SECONDS = 10.0  # for a point in whole numbers; the others have all the time that is left
LONGEST = (1 << 32) - 2  # milliseconds that z3 takes for a limit


def z3_module() -> Any:
    """z3, or Trouble that says how to get it."""
    try:
        import z3
    except ImportError:
        raise Trouble(
            "the numbers are too great for floats, and exact ones need z3: apt-get install python3-z3"
        ) from None
    return z3


class ExactSolver(Solver):
    """Points are arrays of fractions."""

    def __init__(self, cases: Cases, limit: Limit) -> None:
        super().__init__(cases)
        self.z3, self.limit = z3_module(), limit

    def _sum(self, row: Row, variables: Sequence[Any]) -> Any:
        return self.z3.Sum(
            [int(k) * variables[a] for a, k in zip(row.variables.tolist(), row.numbers.tolist())]
            + [self.z3.IntVal(row.constant)]
        )

    def _constrain(self, solver: Any, item: Item, variables: Sequence[Any], number: int, whole: bool) -> None:
        if isinstance(item, Zeros):
            solver.add([variables[a] == 0 for a in item.variables.tolist()])
        elif item.kind == AT_LEAST:
            solver.add(self._sum(item, variables) >= 0)
        elif item.kind == EQUAL:
            solver.add(self._sum(item, variables) == 0)
        elif whole and item.modulus:
            rest = self.z3.Int(f"k{number}") * item.modulus
            total = self._sum(item, variables)
            solver.add(
                total == rest if item.kind == DIVIDES else self.z3.And(total > rest, total < rest + item.modulus)
            )

    def _checked(self, solver: Any, is_tried: bool = False) -> Any:
        """What z3 says within the seconds of the processor that are left; within a few, where it is only tried."""
        left = max(self.limit.deadline - clock(), 1.0)

        def checked(wall: float) -> Any:
            solver.set("timeout", int(min(wall * 1000, LONGEST)))
            return solver.check()

        return worked(min(left, SECONDS) if is_tried else left, checked, lambda out: bool(out == self.z3.unknown))

    def _solved(self, line: Sequence[Frame], whole: bool, cost: Array) -> Array | None:
        z3 = self.z3
        solver = z3.Solver() if whole else z3.Optimize()
        variables = [(z3.Int if whole else z3.Real)(f"v{a}") for a in range(self.cases.variables)]
        solver.add([v >= 0 for v in variables])
        for number, item in enumerate(all_items(line)):
            self._constrain(solver, item, variables, number, whole)
        if not whole:
            solver.minimize(
                z3.Sum(
                    [
                        z3.RealVal(str(Fraction(float(c)).limit_denominator(1000))) * v
                        for c, v in zip(cost, variables)
                        if c
                    ]
                )
            )
        self.calls += 1
        answer = self._checked(solver, is_tried=whole)
        if answer == z3.unsat or (whole and answer == z3.unknown):
            return None
        if answer == z3.unknown:
            raise Trouble("z3's time was up before it found an answer")
        model = solver.model()
        values = [model.eval(v, model_completion=True) for v in variables]
        return np.array([Fraction(v.as_long()) if whole else v.as_fraction() for v in values], dtype=object)

    def point(self, line: Sequence[Frame], cost: Array | None = None, eager: Array | None = None) -> Array | None:
        """A point that meets all facts but congruences, or None."""
        return None if line[-1].is_false else self._solved(line, False, self.cost if cost is None else cost)

    def whole_point(self, line: Sequence[Frame], seconds: float = SECONDS) -> Array | None:
        """A point in whole numbers that meets all facts."""
        return None if line[-1].is_false else self._solved(line, True, self.cost)

    def sums(self, items: Sequence[Item]) -> Terms:
        """Multipliers of a `lin`."""
        z3 = self.z3
        rows = [item for item in items if isinstance(item, Row) and item.kind in (AT_LEAST, EQUAL)]
        zeros = [item for item in items if isinstance(item, Zeros)]
        free = {a for block in zeros for a in block.variables.tolist()}
        solver = z3.Optimize()
        parts = [(z3.Real(f"u{i}"), z3.Real(f"d{i}")) for i in range(len(rows))]
        columns: dict[int, list[Any]] = {}
        for row, (up, down) in zip(rows, parts):
            solver.add(up >= 0, down >= 0 if row.kind == EQUAL else down == 0)
            for a, k in zip(row.variables.tolist(), row.numbers.tolist()):
                columns.setdefault(a, []).append(int(k) * (up - down))
        solver.add([z3.Sum(column) <= 0 for a, column in columns.items() if a not in free])
        solver.add(z3.Sum([row.constant * (up - down) for row, (up, down) in zip(rows, parts)]) <= -1)
        solver.minimize(z3.Sum([row.price * (up + down) for row, (up, down) in zip(rows, parts)]))
        self.calls += 1
        answer = self._checked(solver)
        if answer != z3.sat:
            raise Trouble(
                "z3's time was up before it found multipliers" if answer == z3.unknown else "there are no multipliers"
            )
        model = solver.model()
        values = [model.eval(up - down, model_completion=True).as_fraction() for up, down in parts]
        scale = lcm(*(v.denominator for v in values))
        closed = completed([(row, int(v * scale)) for row, v in zip(rows, values) if v], zeros, self.cases.variables)
        if closed is None:
            raise Trouble("multipliers past 2^40")
        return closed
