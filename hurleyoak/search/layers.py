"""Layers of one leaf: moves in groups, each with weights that its moves lower, none of which wakes an earlier
group."""
from __future__ import annotations

import random
from fractions import Fraction
from math import ceil, lcm
from typing import Sequence

import numpy as np

from ..protocol.nets import Leaf
from ..proof.bundles import SIZE_LIMIT, Layer
from .highs import FOUND, Array, matrix_of, minimise, sparse
from .howfar import note
from .limits import clock
from .waking import Moves, Waking

TRIES = 8  # orders of choices at most, all but the first one shuffled
TRY_MOVES = 5_000  # moves of all tries together, where there are several
WHOLE_SECONDS = 10.0
DENOMINATORS = 1 << 12  # of fractions that are scaled
HOPELESS = 50  # closures without weights that are remembered
SAMPLE = 400  # closures that are sorted by size before the others are made

FEW = 50  # kinds of moves with which a program begins, and that are added at once
TOLERANCE = 1e-7
ROUNDING = 1e-6

Change = tuple[tuple[int, int], ...]


class LayerFinder:
    """Searches layers."""

    def __init__(self, leaf: Leaf, deadline: float) -> None:
        self.leaf, self.deadline = leaf, deadline
        self.waking = Waking(leaf)
        self.changes: dict[int, Change] = {t: tuple(sorted(leaf.change(t).items())) for t in leaf.active}
        numbers = {change: i for i, change in enumerate(sorted(set(self.changes.values())))}
        self.kinds = np.zeros(len(leaf.moves), dtype=np.int64)  # moves of one kind change the same
        for t, change in self.changes.items():
            self.kinds[t] = numbers[change]
        self.lowers = _matrix(list(numbers), len(leaf.states))
        self.hard = np.zeros(len(numbers), dtype=bool)  # kinds that were not lowered by weights for others
        self.last: tuple[Array, tuple[float, Array] | None] = (self.hard.copy(), None)
        self.known: dict[bytes, tuple[float, Array] | None] = {}
        self.stuck: Moves = frozenset()

    def weights(self, moves: Moves, whole: bool = False) -> tuple[float, Array] | None:
        """Weights from 0 on that all these moves lower by 1 or more, with the least greatest weight; in whole numbers
        where asked.

        Whole ones are fractions scaled, unless smaller ones are found in time.
        """
        mask = np.zeros(self.lowers.shape[0], dtype=bool)
        mask[self.kinds[np.fromiter(moves, dtype=np.int64)]] = True
        if whole:
            kinds = np.nonzero(mask)[0]
            found = self.weights(moves)
            scaled = None if found is None else self._scaled(kinds, found[1])
            if found is None or scaled is not None and scaled[0] <= ceil(found[0] - TOLERANCE):
                return scaled
            small = self._program(kinds, True)
            return small if scaled is None or small is not None and small[0] < scaled[0] else scaled
        key = mask.tobytes()
        if key not in self.known:
            self.known[key] = self._by_few(mask)
        return self.known[key]

    def _by_few(self, mask: Array) -> tuple[float, Array] | None:
        """The program of those kinds of moves that were hard to lower before, and of more, as long as others aren't
        lowered."""
        kinds = np.nonzero(mask)[0]
        lowers = self.lowers[kinds]
        part, found = self.last
        if found is not None and not (part & ~mask).any() and (lowers @ found[1] < TOLERANCE - 1).all():
            return found  # (what a part of these kinds needs at least does for all)
        few = self.hard[kinds]
        few[:: max(1, len(kinds) // FEW)] = True
        while True:
            found = self._program(kinds[few], False)
            if found is None:
                return None
            over = lowers @ found[1] + 1
            over[few] = 0
            worst = np.argsort(-over)[:FEW]
            worst = worst[over[worst] > TOLERANCE]
            if not len(worst):
                self.last = mask, found
                return found
            few[worst] = True
            self.hard[kinds[worst]] = True

    def _program(self, kinds: Array, whole: bool) -> tuple[float, Array] | None:
        part = self.lowers[kinds].tocoo()
        used, columns = np.unique(part.col, return_inverse=True)
        width, count = len(used), len(kinds)
        own = np.arange(width)
        matrix = matrix_of(
            np.concatenate([part.row, count + own, count + own]),
            np.concatenate([columns, own, np.full(width, width)]),
            np.concatenate([part.data, np.ones(width), -np.ones(width)]),
            count + width,
            width + 1,
        )
        high = np.concatenate([np.full(count, -1.0), np.zeros(width)])
        cost = np.append(np.full(width, 1e-4 / max(width, 1)), 1.0)
        got = minimise(
            cost,
            matrix,
            np.full(count + width, -np.inf),
            high,
            np.zeros(width + 1),
            np.full(width + 1, np.inf),
            whole,
            WHOLE_SECONDS if whole else None,
        )
        if got.status != FOUND:
            return None
        full = np.zeros(len(self.leaf.states))
        full[used] = got.point[:width]
        return float(got.point[width]), full

    def _scaled(self, kinds: Array, weights: Array) -> tuple[float, Array] | None:
        """The same weights times a number that makes them whole; None where they are past the limit then, or no
        fractions."""
        parts = [Fraction(float(w)).limit_denominator(DENOMINATORS) for w in weights]
        scale = lcm(*(part.denominator for part in parts))
        made = [int(part * scale) for part in parts]
        changes = self.lowers[kinds]
        for row in range(changes.shape[0]):
            near = range(changes.indptr[row], changes.indptr[row + 1])
            if sum(int(changes.data[i]) * made[changes.indices[i]] for i in near) > -1:
                return None
        return (
            None if max(made, default=0) > SIZE_LIMIT else (float(max(made, default=0)), np.array(made, dtype=float))
        )

    def bound(self, groups: Sequence[Moves]) -> float:
        """What the groups cost, as far as fractions tell."""
        return sum(found[0] for found in map(self.weights, groups) if found)

    def is_valid(self, groups: Sequence[Moves]) -> bool:
        """Whether the groups have weights and wake nothing."""
        done: Moves = frozenset()
        for group in groups:
            if not self.waking.wakes_none(done, group) or self.weights(group) is None:
                return False
            done |= group
        return True

    def groups(self, rng: random.Random | None) -> list[Moves] | None:
        """The groups from first to last, by peeling; with `rng` in a random order of choices. None where moves are
        left."""
        out = self.some_groups(rng)
        return out if sum(map(len, out)) == len(self.leaf.active) else None

    def some_groups(self, rng: random.Random | None) -> list[Moves]:
        """The same as far as peeling goes: what is left wakes none of them."""
        done: Moves = frozenset()
        every = frozenset(self.leaf.active)
        out: list[Moves] = []
        while done != every:
            rest = every - done
            layer = rest if self.weights(rest) is not None else self._peeled(done, rest, rng)
            if not layer:
                break
            out.append(layer)
            done |= layer
            if rng is None:
                note(len(done) / len(every))
        return out

    def _peeled(self, done: Moves, rest: Moves, rng: random.Random | None) -> Moves:
        """The next layer: a union of closures that has weights; empty where there is none."""
        smallest = rest
        for mend in (False, True):
            order = sorted(rest)
            step = max(1, len(order) // SAMPLE)
            first, others = order[::step], [t for i, t in enumerate(order) if i % step]
            choices = sorted(
                {self.waking.closure(done, frozenset([t]), mend) for t in first}, key=lambda c: (len(c), sorted(c))
            )
            smallest = min(smallest, choices[0], key=len)
            if rng:
                rng.shuffle(choices)
            layer = self._union(done, choices, others, mend)
            if layer or clock() > self.deadline:
                return layer
        self.stuck = smallest
        return frozenset()

    def _union(self, done: Moves, choices: Sequence[Moves], others: Sequence[int], mend: bool) -> Moves:
        """The union of closures, one after the other, as long as it has weights; `others` are moves whose closures
        aren't made yet."""
        layer: Moves = frozenset()
        bad: list[Moves] = []
        candidates: list[Moves | int] = [*choices, *others]
        for made in candidates:
            if isinstance(made, int) and (made in layer or any(made in b for b in bad)):
                continue
            choice = self.waking.closure(done, frozenset([made]), mend) if isinstance(made, int) else made
            if choice <= layer or any(b <= choice for b in bad):
                continue
            more = self.waking.closure(done, layer | choice, mend)
            if self.weights(more) is not None:
                layer = more
            elif len(bad) < HOPELESS and self.weights(choice) is None:
                bad.append(choice)
            if clock() > self.deadline:
                return frozenset()
        return layer

    def merged(self, groups: Sequence[Moves]) -> list[Moves]:
        """Neighbouring groups made one, as long as the bound does not rise."""
        out, done, i = list(groups), frozenset[int](), 0
        while i < len(out) - 1:
            if self._are_better_one(done, *out[i : i + 2]):
                out[i : i + 2] = [out[i] | out[i + 1]]
                i = max(i - 1, 0)
                done = done - out[i]
            else:
                done |= out[i]
                i += 1
        return out

    def _are_better_one(self, done: Moves, first: Moves, second: Moves) -> bool:
        """Whether two groups behind the moves `done` are a valid group together that costs no more than both."""
        both = self.weights(first | second) if self.waking.wakes_none(done, first | second) else None
        return both is not None and both[0] <= self.bound([first, second]) + ROUNDING

    def peeled(self, is_patient: bool = True) -> list[Moves] | None:
        """The best groups of several tries, or None; who isn't patient gives up where the first one finds none."""
        best: list[Moves] | None = None
        for k in range(min(TRIES, max(1, TRY_MOVES // len(self.leaf.active)))):
            found = self.groups(random.Random(k) if k else None)
            if found is not None:
                found = self.merged(found)
                if best is None or self.bound(found) < self.bound(best) - ROUNDING:
                    best = found
            if (not is_patient if best is None else len(best) == 1) or clock() > self.deadline:
                break
        return best

    def layers_of(self, groups: Sequence[Moves]) -> list[Layer] | None:
        """The groups with whole weights."""
        out = []
        for group in groups:
            found = self.weights(group, whole=True)
            if found is None:
                return None
            out.append(Layer(tuple(sorted(group)), tuple(int(round(w)) for w in found[1])))
        return out

    def conflict(self) -> list[int]:
        """Moves that, some times each, leave every crowd as it was, among those at which the peeling stuck."""
        moves = sorted(self.stuck)
        if not moves:
            return []
        rows = [q for t in moves for q, _ in self.changes[t]] + [len(self.leaf.states)] * len(moves)
        columns = [i for i, t in enumerate(moves) for _ in self.changes[t]] + list(range(len(moves)))
        numbers = [float(k) for t in moves for _, k in self.changes[t]] + [1.0] * len(moves)
        matrix = matrix_of(rows, columns, numbers, len(self.leaf.states) + 1, len(moves))
        at = np.zeros(len(self.leaf.states) + 1)
        at[-1] = 1
        got = minimise(np.ones(len(moves)), matrix, at, at, np.zeros(len(moves)), np.full(len(moves), np.inf))
        return [t for t, k in zip(moves, got.point) if k > 1e-9] if got.status == FOUND else []


def _matrix(changes: Sequence[Change], states: int) -> Array:
    """A row for each change."""
    rows = [i for i, change in enumerate(changes) for _ in change]
    columns = [q for change in changes for q, _ in change]
    return sparse.csr_matrix(
        ([float(k) for change in changes for _, k in change], (rows, columns)), shape=(len(changes), states)
    )
