"""Tame layers of one leaf: peeled off one after the other, each with the least spread of its weights.

The next layer is the greatest set of moves that some weights lower, and that no move that is left wakes or raises. Those
may raise them beside which a move of an earlier layer is possible. One linear program gives the set. Where it is empty,
layers are built up move by move.
"""
from __future__ import annotations

from math import ceil
from typing import Sequence

import numpy as np

from ..protocol.nets import Leaf, pair
from ..proof.bundles import SIZE_LIMIT, Layer
from ..proof.tame import TooMuch, first_fight
from .highs import FOUND, Array, matrix_of, minimise
from .limits import clock
from .waking import Moves, Waking

MOST_MOVES = 8_000
SECONDS = 20.0
FEW_MOVES = 60  # of a leaf whose layers are built up move by move
WHOLE_SECONDS = 4.0
TOLERANCE = 1e-7
HALF = 0.5


class TameFinder:
    """Searches tame layers."""

    def __init__(self, leaf: Leaf, deadline: float) -> None:
        self.leaf, self.deadline, self.waking = leaf, deadline, Waking(leaf)
        self.changes = {t: leaf.change(t) for t in leaf.active}
        self.states = len(leaf.states)

    def layers(self) -> list[Layer] | None:
        """Tame layers; None where none were found."""
        out: list[Layer] = []
        done: Moves = frozenset()
        left = frozenset(self.leaf.active)
        while left:
            own = self.greatest(done, left)
            weights = self.weights(done, own, left - own) if own else None
            if weights is None:
                own, weights = self.built_up(done, left)
            if weights is None or clock() > self.deadline:
                return None
            out.append(Layer(tuple(sorted(own)), weights))
            done, left = done | own, left - own
        return out

    def greatest(self, done: Moves, left: Moves) -> Moves:
        """The moves that stay where those are dropped that are woken or aren't lowered."""
        own = left
        while own and clock() < self.deadline:
            kept = self.unwoken(done, own, left - own)
            if kept == own:
                kept = self.lowered(done, own, left - own)
                if kept == own:
                    return own
            own = kept
        return frozenset()

    def unwoken(self, done: Moves, own: Moves, rest: Moves) -> Moves:
        """Those moves that none of the rest wakes: enables where no move of `done` and of `own` is enabled."""
        near = self.waking.near(self.waking.mask([*done, *own]))
        others = np.nonzero(self.waking.mask(rest))[0] if rest else np.zeros(0, dtype=np.int64)
        woken: set[tuple[int, int]] = set()
        for i in others[self.waking.wake(near, others)]:
            p, q, r, s = (int(state) for state in self.waking.ends[:, i])
            fresh = (near[r] | near[s]) & ~(near[p] | near[q])
            woken |= {pair(y, int(b)) for b in np.nonzero(fresh)[0] for y in (r, s) if near[y, b]}
            woken |= {pair(r, s)} if near[r, s] else set()
        return frozenset(t for t in own if pair(*self.leaf.moves[t][:2]) not in woken)

    def raisers(self, done: Moves, own: Moves, rest: Moves) -> list[int]:
        """Those of the rest that must not raise the weights of `own`."""
        early = self.waking.near(self.waking.mask(done)) if done else np.zeros_like(self.waking.full)
        ends: Array = np.array([self.leaf.moves[t][:2] for t in own]).T
        alive = ends[:, ~early[ends[0], ends[1]]]
        out = []
        for u in sorted(rest):
            p, q = self.leaf.moves[u][:2]
            beside = _others(early, p) | _others(early, q)
            if not early[p, q] and (~(beside[alive[0]] | beside[alive[1]])).any():
                out.append(u)
        return out

    def sharers(self, own: Moves, rest: Moves) -> list[int]:
        """Those of the rest that take the states of one of `own`, and so have to lower the weights too."""
        taken = {pair(*self.leaf.moves[t][:2]) for t in own}
        return [u for u in sorted(rest) if pair(*self.leaf.moves[u][:2]) in taken]

    def lowered(self, done: Moves, own: Moves, rest: Moves) -> Moves:
        """The most of these moves that some weights lower, where none of them and of the raisers is raised."""
        moves = sorted(own)
        rows = [*moves, *self.raisers(done, own, rest)]
        where = [(i, q, k) for i, t in enumerate(rows) for q, k in self.changes[t].items()]
        where += [(i, self.states + i, 1) for i in range(len(moves))]
        width = self.states + len(moves)
        matrix = matrix_of(*_columns(where), len(rows), width)
        cost = np.concatenate([np.zeros(self.states), -np.ones(len(moves))])
        most = np.concatenate([np.full(self.states, np.inf), np.ones(len(moves))])
        zeros = np.zeros(len(rows))
        got = minimise(cost, matrix, np.full(len(rows), -np.inf), zeros, np.zeros(width), most)
        if got.status != FOUND:
            return frozenset()
        return frozenset(t for t, low in zip(moves, got.point[self.states :]) if low > HALF)

    def weights(self, done: Moves, own: Moves, rest: Moves) -> tuple[int, ...] | None:
        """Whole weights from 0 on of a tame layer of these moves before the rest, the greatest as small as can be."""
        if self.unwoken(done, own, rest) != own:
            return None
        falls = [*sorted(own), *self.sharers(own, rest)]
        rows = [(t, -1.0) for t in falls] + [(t, 0.0) for t in self.raisers(done, own, rest)]
        used = sorted({q for t in falls for q in self.changes[t]})
        found = self._program(rows, used, False)
        if found is not None and _greatest_of(found) > ceil(_greatest_of(found) - TOLERANCE) - TOLERANCE:
            whole: Array = np.round(found)
            if np.abs(whole - found).max(initial=0.0) < TOLERANCE and whole.max(initial=0.0) <= SIZE_LIMIT:
                return tuple(int(w) for w in whole)
        found = self._program(rows, used, True) if found is not None else None
        return None if found is None or found.max(initial=0.0) > SIZE_LIMIT else tuple(int(round(w)) for w in found)

    def _program(self, rows: Sequence[tuple[int, float]], used: Sequence[int], whole: bool) -> Array | None:
        """States outside `used` may weigh something too, where that keeps others from being raised."""
        count, top = len(rows), self.states
        where = [(i, q, k) for i, (t, _) in enumerate(rows) for q, k in self.changes[t].items()]
        where += [(count + q, q, 1) for q in range(top)] + [(count + q, top, -1) for q in range(top)]
        high = np.concatenate([np.array([least for _, least in rows]), np.zeros(top)])
        small = 1e-4 / max(top, 1)
        cost = np.append(np.array([small if q in used else 2 * small for q in range(top)]), 1.0)
        got = minimise(
            cost,
            matrix_of(*_columns(where), count + top, top + 1),
            np.full(count + top, -np.inf),
            high,
            np.zeros(top + 1),
            np.full(top + 1, np.inf),
            whole,
            WHOLE_SECONDS if whole else None,
        )
        return got.point[:top] if got.status == FOUND else None

    def built_up(self, done: Moves, left: Moves) -> tuple[Moves, tuple[int, ...] | None]:
        """A layer to which one move after the other is added, as long as it has weights."""
        own: Moves = frozenset()
        weights = None
        if len(left) > FEW_MOVES:
            return own, None
        for t in sorted(left):
            found = self.weights(done, own | {t}, left - own - {t})
            if found is not None:
                own, weights = own | {t}, found
            if clock() > self.deadline:
                break
        return own, weights


def _others(early: Array, p: int) -> Array:
    """The states other than p that have an early move with it."""
    out = early[p].copy()
    out[p] = False
    return out


def _columns(where: Sequence[tuple[int, int, int]]) -> tuple[Array, Array, Array]:
    """Rows, columns and numbers of entries."""
    rows, columns, numbers = zip(*where) if where else ((), (), ())
    return np.array(rows, dtype=int), np.array(columns, dtype=int), np.array(numbers, dtype=float)


def _greatest_of(weights: Array) -> float:
    return float(weights.max(initial=0.0))


def tame_layers(leaf: Leaf, deadline: float) -> list[Layer] | None:
    """Tame layers of a leaf; None where none were found, or it has too many moves."""
    if len(leaf.active) > MOST_MOVES:
        return None
    layers = TameFinder(leaf, min(deadline, clock() + SECONDS)).layers()
    try:
        return layers if layers is not None and first_fight(leaf, layers) is None else None
    except TooMuch:
        return None
