"""Layers one after the other by SMT (Debian's python3-z3): which of the moves left have weights, and are woken by no
other?

If there are layers at all, such moves are left after any layers that were found before. So no layer ever has to be
taken back. If there are no such moves, there are no layers. z3 chooses the moves by the waking alone. Of moves that
have no weights together a linear program names some that leave every crowd as it was; these are never chosen together
again.
"""
from __future__ import annotations

from enum import Enum
from fractions import Fraction
from importlib.util import find_spec
from typing import Any, Iterator, Sequence

import numpy as np

from ..proof.items import Array
from ..protocol.nets import Leaf, pair
from .highs import FOUND as SOLVED
from .highs import matrix_of, minimise
from .layers import DENOMINATORS, LayerFinder
from .limits import clock, worked
from .waking import Moves

ALWAYS_TRUE = 1  # z3 tries first to choose a move: layers are large then, and few
CIRCLES = 20  # that are learned from one choice
TOLERANCE = 1e-9


class Answer(Enum):
    """What z3 says of a question."""

    FOUND = "found"
    NONE = "none"
    UNKNOWN = "unknown"


FOUND, NONE, UNKNOWN = Answer.FOUND, Answer.NONE, Answer.UNKNOWN

Pair = tuple[int, int]


def _clauses(leaf: Leaf, kinds: Array) -> Iterator[str]:
    """The choices in the language of SMT solvers. `x`: the move is listed, now or before; `d`: it was before; `k`: its
    kind is chosen now; `n`: two states have a listed move."""
    moves: dict[Pair, list[int]] = {}
    for t in leaf.active:
        moves.setdefault(pair(*leaf.moves[t][:2]), []).append(t)
    names = [f"{letter}{t}" for letter in "xdc" for t in leaf.active]
    names += [f"k{kind}" for kind in sorted({int(kinds[t]) for t in leaf.active})]
    names += [f"n{p}_{q}" for p, q in moves]
    yield from (f"(declare-const {name} Bool)" for name in names)
    for t in leaf.active:
        yield f"(assert (or (not x{t}) d{t} k{kinds[t]}))"
        yield f"(assert (or (not c{t}) (and x{t} (not d{t}))))"
    yield f"(assert (or {' '.join(f'c{t}' for t in leaf.active)}))"
    for (p, q), some in moves.items():
        yield f"(assert (= n{p}_{q} (or {' '.join(f'x{t}' for t in some)} false)))"
        for woken, excuses in sorted(_wakings(leaf, (p, q), some, set(moves))):
            others = " ".join(f"n{a}_{b}" for a, b in excuses)
            yield f"(assert (or n{p}_{q} (not n{woken[0]}_{woken[1]}) {others}))"


def _wakings(leaf: Leaf, here: Pair, moves: list[int], reacting: set[Pair]) -> set[tuple[Pair, tuple[Pair, ...]]]:
    """Which two states the moves of two states wake, and which others excuse it where they are listed too."""
    out: set[tuple[Pair, tuple[Pair, ...]]] = set()
    for t in moves:
        r, s = leaf.moves[t][2:]
        if pair(r, s) in reacting and pair(r, s) != here:
            out.add((pair(r, s), ()))
        for y in {r, s} - set(here):
            for b in leaf.partners[y]:
                before = {pair(x, b) for x in here}
                if pair(y, b) not in before:
                    out.add((pair(y, b), tuple(sorted(before & reacting - {here}))))
    return out


class _Program:
    def __init__(self, z3: Any, finder: LayerFinder) -> None:
        self.z3, self.finder, self.leaf = z3, finder, finder.leaf
        self.solver = z3.SimpleSolver()
        self.solver.set("phase_selection", ALWAYS_TRUE)
        self.solver.from_string("\n".join(_clauses(self.leaf, finder.kinds)))
        self.listed = {t: z3.Bool(f"x{t}") for t in self.leaf.active}
        self.shown = {t: variable.decl() for t, variable in self.listed.items()}
        self.done = {t: z3.Bool(f"d{t}") for t in self.leaf.active}
        self.undone = {t: z3.Not(variable) for t, variable in self.done.items()}
        self.is_exact = True  # whether all that was learned was checked in fractions

    def layer(self, rest: list[int], deadline: float) -> tuple[Answer, list[int]]:
        """Moves of the rest that are a layer."""
        while clock() < deadline:
            answer = self._checked([self.undone[t] for t in rest], deadline - clock())
            if answer != self.z3.sat:
                return (NONE if answer == self.z3.unsat and self.is_exact else UNKNOWN), []
            model = self.solver.model()
            chosen = [t for t in rest if self.z3.is_true(model.get_interp(self.shown[t]))]
            if not self._learned(chosen):
                return FOUND, chosen
        return UNKNOWN, []

    def _checked(self, assumed: list[Any], seconds: float) -> Any:
        def checked(wall: float) -> Any:
            self.solver.set("timeout", int(wall * 1000))
            return self.solver.check(*assumed)

        return worked(seconds, checked, lambda out: bool(out == self.z3.unknown))

    def keep(self, layer: list[int]) -> None:
        """These moves are listed from now on."""
        for t in layer:
            self.solver.add(self.listed[t], self.done[t])

    def _learned(self, chosen: list[int]) -> bool:
        """Whether the moves have no weights: then circles among them are excluded from now on."""
        left, kinds = chosen, self.finder.kinds
        for count in range(CIRCLES):
            circle = _circle(self.finder, np.unique(kinds[left])) if left else []
            if not circle:
                return bool(count)
            self.is_exact &= _is_circle(self.finder, circle)
            self.solver.add(self.z3.Or([self.z3.Not(self.z3.Bool(f"k{kind}")) for kind, _ in circle]))
            left = [t for t in left if kinds[t] != circle[0][0]]
        return True


def _circle(finder: LayerFinder, kinds: Array) -> list[tuple[int, float]]:
    """Some of these kinds of moves that leave every crowd as it was, each taken so often; empty where they have
    weights."""
    part = finder.lowers[kinds].T.tocoo()
    states, width = len(finder.leaf.states), len(kinds)
    matrix = matrix_of(
        np.concatenate([part.row, np.full(width, states)]),
        np.concatenate([part.col, np.arange(width)]),
        np.concatenate([part.data, np.ones(width)]),
        states + 1,
        width,
    )
    at = np.zeros(states + 1)
    at[-1] = 1
    got = minimise(np.zeros(width), matrix, at, at, np.zeros(width), np.full(width, np.inf))
    if got.status != SOLVED:
        return []
    return [(int(kinds[i]), float(got.point[i])) for i in np.nonzero(got.point > TOLERANCE)[0]]


def _is_circle(finder: LayerFinder, circle: list[tuple[int, float]]) -> bool:
    """Whether fractions near these numbers leave every crowd as it was exactly."""
    least = min(times for _, times in circle)
    total: dict[int, Fraction] = {}
    for kind, times in circle:
        row = finder.lowers[kind].tocoo()
        for q, change in zip(row.col.tolist(), row.data.tolist()):
            total[q] = total.get(q, Fraction(0)) + int(change) * Fraction(times / least).limit_denominator(
                DENOMINATORS
            )
    return not any(total.values())


def has_z3() -> bool:
    """Whether z3 is there."""
    return find_spec("z3") is not None


def layers_by_smt(finder: LayerFinder, deadline: float, begun: Sequence[Moves] = ()) -> tuple[Answer, list[Moves]]:
    """Layers, the first of which are `begun`; or that there are none, of whatever number; or neither in this time (or
    without z3). Where there are none for all moves, those that there are are given: no other move wakes them."""
    try:
        import z3
    except ImportError:
        return UNKNOWN, list(begun)
    program = _Program(z3, finder)
    out = list(begun)
    for group in begun:
        program.keep(sorted(group))
    rest = sorted(frozenset(finder.leaf.active).difference(*begun))
    while rest:
        answer, layer = program.layer(rest, deadline)
        if answer != FOUND:
            return answer, out
        program.keep(layer)
        out.append(frozenset(layer))
        rest = sorted(set(rest) - set(layer))
    return FOUND, out
