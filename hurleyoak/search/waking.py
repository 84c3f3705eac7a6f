"""Which moves wake moves of earlier layers, for all moves at once (the test of docs/guide/certificates.md, as a
matrix)."""
from __future__ import annotations

from typing import Iterable

import numpy as np

from ..protocol.nets import Leaf
from ..proof.items import Array

Moves = frozenset[int]


class Waking:
    """The moves of one leaf that are not silent."""

    def __init__(self, leaf: Leaf) -> None:
        self.leaf = leaf
        self.active = np.array(leaf.active, dtype=np.int64)
        self.place = np.zeros(len(leaf.moves), dtype=np.int64)
        self.place[self.active] = np.arange(len(self.active))
        self.ends = np.array([leaf.moves[t] for t in leaf.active], dtype=np.int64).reshape(-1, 4).T
        self.states = len(leaf.states)
        p, q = self.ends[:2]
        self.full = np.zeros((self.states, self.states), dtype=bool)
        self.full[p, q] = self.full[q, p] = True

    def mask(self, moves: Iterable[int]) -> Array:
        """Moves as a mask over the active ones."""
        out = np.zeros(len(self.active), dtype=bool)
        out[self.place[np.fromiter(moves, dtype=np.int64)]] = True
        return out

    def near(self, have: Array) -> Array:
        """Which pairs of states the moves of a mask take."""
        p, q = self.ends[:2]
        out = np.zeros_like(self.full)
        out[p[have], q[have]] = out[q[have], p[have]] = True
        return out

    def wake(self, near: Array, at: Array) -> Array:
        """Which of these moves wake a pair of `near`."""
        p, q, r, s = self.ends[:, at]
        words = _words(near)
        fresh = (words[r] | words[s]) & ~(words[p] | words[q])
        return ~near[p, q] & (near[r, s] | fresh.any(axis=1))

    def wakes_none(self, earlier: Iterable[int], moves: Iterable[int]) -> bool:
        """Whether none of the moves wakes an earlier one."""
        have = self.mask(earlier)
        if not have.any():
            return True
        return not bool(self.wake(self.near(have), np.nonzero(self.mask(moves))[0]).any())

    def closure(self, done: Moves, seed: Moves, mend: bool = False) -> Moves:
        """A set with the seed, less `done`, that no move outside wakes.

        A move that wakes it is added; with `mend` rather the moves that would have been possible already, where there
        are any.
        """
        have = self.mask([*done, *seed])
        p, q = self.ends[:2]
        while True:
            near = self.near(have)
            left = np.nonzero(~have & ~near[p, q])[0]
            wakes = self.wake(near, left)
            if not wakes.any():
                return frozenset(self.active[have].tolist()) - done
            left = left[wakes]
            if mend:
                a, b, r, s = self.ends[:, left]
                fresh = (near[r] | near[s]) & ~(near[a] | near[b])
                fixable = ~near[r, s] & ~(fresh & ~(self.full[a] | self.full[b])).any(axis=1)
                have |= self._wanted(left, fixable, fresh)[p, q]
                left = left[~fixable]
            have[left] = True

    def _wanted(self, left: Array, fixable: Array, fresh: Array) -> Array:
        p, q = self.ends[:2]
        want = np.zeros_like(self.full)
        for i in np.nonzero(fixable)[0]:
            for y in (p[left[i]], q[left[i]]):
                others = fresh[i] & self.full[y]
                want[y, others] = want[others, y] = True
        return want


def _words(near: Array) -> Array:
    """The rows as bits, 64 in a number."""
    bits = np.packbits(near, axis=1)
    out = np.zeros((len(near), (bits.shape[1] + 7) // 8 * 8), dtype=np.uint8)
    out[:, : bits.shape[1]] = bits
    return out.view(np.uint64)
