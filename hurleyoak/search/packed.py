"""All crowds of an input as arrays, a step of all of them at once; what it finds is what `explore.flaw_at` finds crowd
by crowd."""
from __future__ import annotations

import numpy as np

from ..proof.bundles import start_crowd
from ..proof.items import Array
from ..protocol.nets import Leaf, pair
from ..protocol.predicates import Predicate, value_at
from .explore import CROWDS, first_moves, flaw_at
from .flaws import ENDLESS, RESTLESS, WRONG, Flaw
from .limits import clock
from .whole import System, shown_leaf, words_of

PACKED_CROWDS = 1_000_000  # crowds of one input at most
PACKED_STEPS = 8_000_000  # moves between them at most
CELLS = 4_000_000  # crowds times moves that are looked at in one go
FEW = 200  # crowds of an input that are built one by one, as that is sooner done
KEY_BITS = 63
SEED = 1


def _expanded(starts: Array, ends: Array) -> Array:
    """The numbers from each start up to its end, one range after the other."""
    sizes = ends - starts
    return np.repeat(starts - np.cumsum(sizes) + sizes, sizes) + np.arange(int(sizes.sum()))


class Packed:
    """The crowds of one input, one in a row, in the order in which they are met; and the moves between them, by
    `source`.

    A crowd's key is its counts as one number where that has room, or a sum by chance numbers: then equal keys are
    compared.
    """

    def __init__(self, leaf: Leaf, counts: tuple[int, ...]) -> None:
        self.leaf = leaf
        self.numbers = np.array(sorted(leaf.active, key=lambda t: (pair(*leaf.moves[t][:2]), t)), dtype=np.int64)
        ends = np.array(leaf.moves, dtype=np.int64).reshape(-1, 4)[self.numbers]
        self.first, self.second = ends[:, 0], ends[:, 1]
        self.needs = (self.first == self.second).astype(np.int64)
        self.change = np.zeros((len(ends), len(leaf.states)), dtype=np.int32)
        for column, by in enumerate((-1, -1, 1, 1)):
            np.add.at(self.change, (np.arange(len(ends)), ends[:, column]), by)
        start = np.array([start_crowd(leaf, counts)], dtype=np.int32)
        base = int(start.sum()) + 1
        self.is_exact = base ** len(leaf.states) < 1 << KEY_BITS
        chance = np.random.default_rng(SEED).integers(1 << KEY_BITS, size=len(leaf.states), dtype=np.uint64)
        self.weights = (
            np.array([base**q for q in range(len(leaf.states))], dtype=np.uint64) if self.is_exact else chance
        )
        self.shifts = self.change.astype(np.uint64) @ self.weights
        self.crowds = start
        self.source = self.target = self.move = np.zeros(0, dtype=np.int64)

    def built(self, limit: int, stop: float) -> bool:
        """Builds it; whether that was possible within so many crowds and this time."""
        blocks, edges = [self.crowds], []
        known, places = self.crowds.astype(np.uint64) @ self.weights, np.zeros(1, dtype=np.int64)
        total, taken, at, begun = 1, 0, 0, 0
        size = max(1, CELLS // max(1, len(self.numbers)))
        while at < len(blocks):
            for low in range(0, len(blocks[at]), size):
                here = blocks[at][low : low + size]
                rows, kinds = np.nonzero((here[:, self.first] > self.needs) & (here[:, self.second] > 0))
                keys = (here.astype(np.uint64) @ self.weights)[rows] + self.shifts[kinds]
                unique, once, back = np.unique(keys, return_index=True, return_inverse=True)
                near = np.minimum(np.searchsorted(known, unique), len(known) - 1)
                ids = np.where(known[near] == unique, places[near], -1)
                new = np.nonzero(ids < 0)[0]
                new = new[np.argsort(once[new])]
                ids[new] = total + np.arange(len(new))
                made = here[rows[once[new]]] + self.change[kinds[once[new]]]
                edges.append((rows + begun + low, ids[back], self.numbers[kinds]))
                total, taken = total + len(new), taken + len(rows)
                if total > limit or taken > PACKED_STEPS or clock() > stop:
                    return False
                if len(new):
                    blocks.append(made)
                    known, places = np.concatenate([known, unique[new]]), np.concatenate([places, ids[new]])
                    order = np.argsort(known, kind="stable")
                    known, places = known[order], places[order]
            begun += len(blocks[at])
            at += 1
        self.crowds = np.concatenate(blocks)
        self.source, self.target, self.move = (np.concatenate([edge[i] for edge in edges]) for i in range(3))
        return self.is_exact or self._is_right()

    def _is_right(self) -> bool:
        """Whether no two crowds have the same key: each move leads to the crowd that it says."""
        place = np.zeros(len(self.leaf.moves), dtype=np.int64)
        place[self.numbers] = np.arange(len(self.numbers))
        size = max(1, CELLS // len(self.leaf.states))
        for low in range(0, len(self.source), size):
            part = slice(low, low + size)
            if np.any(
                self.crowds[self.source[part]] + self.change[place[self.move[part]]] != self.crowds[self.target[part]]
            ):
                return False
        return True

    def index(self) -> None:
        """The moves by the crowd that they lead from, and by the one that they lead to."""
        count = len(self.crowds)
        self.out = np.searchsorted(self.source, np.arange(count + 1))
        order = np.argsort(self.target, kind="stable")
        self.into = np.searchsorted(self.target[order], np.arange(count + 1))
        self.before = self.source[order]

    def leading(self, goals: Array) -> Array:
        """The crowds from which one of the goals is reached; both as masks."""
        good = goals.copy()
        todo = np.nonzero(goals)[0]
        while len(todo):
            old = self.before[_expanded(self.into[todo], self.into[todo + 1])]
            todo = np.unique(old[~good[old]])
            good[todo] = True
        return good

    def way(self, goals: Array, moves: frozenset[int]) -> tuple[int, list[int]] | None:
        """The shortest way by these moves to a crowd that is wanted."""
        may = np.isin(self.move, list(moves))
        came = np.full(len(self.crowds), -1)
        seen = np.zeros(len(self.crowds), dtype=bool)
        seen[0] = True
        todo = np.zeros(1, dtype=np.int64)
        while len(todo):
            if goals[todo].any():
                at = int(todo[np.argmax(goals[todo])])
                return at, self._path(came, at)
            edges = _expanded(self.out[todo], self.out[todo + 1])
            edges = edges[may[edges] & ~seen[self.target[edges]]]
            _, once = np.unique(self.target[edges], return_index=True)
            edges = edges[np.sort(once)]
            todo = self.target[edges]
            came[todo], seen[todo] = edges, True
        return None

    def _path(self, came: Array, at: int) -> list[int]:
        out: list[int] = []
        while came[at] >= 0:
            out.append(int(self.move[came[at]]))
            at = int(self.source[came[at]])
        return out[::-1]

    def round(self, at: int) -> list[tuple[int, ...]]:
        """Crowds that go round, from one from which no terminal crowd is reached."""
        seen: dict[int, int] = {}
        while at not in seen:
            seen[at] = len(seen)
            ahead = self.target[self.out[at] : self.out[at + 1]].tolist()
            at = next((new for new in ahead if new in seen), ahead[0])
        return [self.crowd(one) for one in list(seen)[seen[at] :]]

    def crowd(self, at: int) -> tuple[int, ...]:
        """The counts of a crowd."""
        return tuple(self.crowds[at].tolist())


def packed_flaw(leaf: Leaf, tree: Predicate, counts: tuple[int, ...], stop: float, limit: int) -> Flaw | int | None:
    """What `flaw_at` gives of a leaf, from arrays."""
    graph = Packed(leaf, counts)
    if not graph.built(limit, stop):
        return None
    graph.index()
    want = value_at(tree, counts)
    terminal = graph.out[1:] == graph.out[:-1]
    is_wrong = (graph.crowds[:, [q for q, value in enumerate(leaf.outputs) if value != want]] > 0).any(axis=1)
    ending = graph.leading(terminal)
    rest = np.zeros(len(terminal), dtype=bool) if ending.all() else ~graph.leading(is_wrong)
    flawed = np.where(ending, terminal & is_wrong, ~graph.leading(rest))
    wanted = next((mask for mask in (flawed, ~ending & rest) if mask.any()), None)
    if wanted is None:
        return len(graph.crowds)
    by_meetings = graph.way(wanted, first_moves(leaf))
    found = by_meetings or graph.way(wanted, frozenset(leaf.active))
    assert found is not None
    at, moves = found
    kind = WRONG if ending[at] else ENDLESS if wanted is flawed else RESTLESS
    around = [] if kind == WRONG else graph.round(at)
    hidden = sorted(set(moves) - first_moves(leaf))
    size = len(graph.crowds)
    return Flaw(
        kind=kind,
        counts=counts,
        crowd=graph.crowd(at),
        moves=moves,
        by_meetings=by_meetings is not None,
        round=around,
        size=size,
        leaf=shown_leaf(leaf),
        words=words_of(leaf),
        hidden=hidden,
    )


def flaw_of(system: System, tree: Predicate, counts: tuple[int, ...], stop: float) -> Flaw | int | None:
    """A flaw at an input, or the number of its crowds, or None where they are too many: by arrays where a leaf has
    more than a few."""
    found = flaw_at(system, tree, counts, stop, FEW if isinstance(system, Leaf) else CROWDS)
    return (
        packed_flaw(system, tree, counts, stop, PACKED_CROWDS) if found is None and isinstance(system, Leaf) else found
    )
