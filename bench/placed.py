"""Exact chains of agents with places of their own, for bench/exact.py: on a graph, in rounds, and mean fields.

A chain's states are what each agent is in. It is made from the moves and the edges alone, by no code of the simulation.
"""

from __future__ import annotations

from collections import Counter
from fractions import Fraction
from itertools import permutations, product
from typing import Callable, Iterable, Iterator

import numpy as np
from numpy.typing import NDArray
from scipy import stats

from hurleyoak.protocol.nets import Leaf
from hurleyoak.simulation.carrying import Limits, go_on
from hurleyoak.simulation.ensembles import ensemble
from hurleyoak.simulation.graphs import Graph
from hurleyoak.simulation.meanfield import course
from hurleyoak.simulation.neighbours import OnGraph
from hurleyoak.simulation.placing import Placing
from hurleyoak.simulation.simulation import ENDLESS, MEETINGS, TERMINAL
from hurleyoak.simulation.timeline import Pace
from hurleyoak.text.files import load
from hurleyoak.text.loaded import Loaded

Edge = tuple[int, int]
Agents = tuple[int, ...]
Floats = NDArray[np.float64]
Outcomes = Callable[[Leaf, int, int], list[tuple[int, int, float]]]
Steps = list[tuple[float, list[Edge]]]  # pairs that meet at once, each by a chance

TAIL, LONGEST = 1e-7, 100_000
TOKENS = "inputs x: T  y: E  z: F\nT , E -> E , T\nT + T -> T + F\nE + F -> F + F @ 0.4\nyes T\n"
DECAY = "A -> B : 0.5\nB -> C : 0.8\ninputs a: A  c: C\nyes B\n"
DECAYING, EVERY, TIMES = (6, 2), 0.7, 3
PARTS = 20  # of the runs, so that few are kept at once
BIAS = 0.01

RING5: list[Edge] = [(0, 1), (1, 2), (2, 3), (3, 4), (4, 0)]
STAR6: list[Edge] = [(0, at) for at in range(1, 6)]
PATH_AND_TRIANGLE: list[Edge] = [(0, 1), (1, 2), (2, 0), (2, 3), (3, 4)]
WAYS: dict[str, tuple[str, tuple[int, ...], list[Edge] | None, bool]] = {
    "majority on a ring": ("examples/approximate-majority/approximate-majority.pop", (3, 2), RING5, False),
    "epidemic on a star": ("examples/epidemic/epidemic.pop", (2, 4), STAR6, False),
    "tokens on a graph": (TOKENS, (2, 2, 1), PATH_AND_TRIANGLE, False),
    "majority in rounds": ("examples/approximate-majority/approximate-majority.pop", (3, 2), None, True),
    "epidemic in rounds": ("examples/epidemic/epidemic.pop", (2, 4), None, True),
    "rounds on a graph": ("examples/epidemic/epidemic.pop", (1, 4), PATH_AND_TRIANGLE, True),
}


def single(edges: list[Edge]) -> Steps:
    """Each edge each way, equally likely."""
    return [(0.5 / len(edges), [pair]) for u, v in edges for pair in ((u, v), (v, u))]


def _in_order(agents: int) -> Iterator[list[Edge]]:
    """For each order of the agents the first with the second, the third with the fourth, and so on."""
    for order in permutations(range(agents)):
        yield [(min(p), max(p)) for p in zip(order[::2], order[1::2])]


def _first_met(order: Iterable[Edge]) -> list[Edge]:
    """The edges, in this order, of which no agent was taken before."""
    taken: set[int] = set()
    made = []
    for u, v in order:
        if u not in taken and v not in taken:
            taken |= {u, v}
            made.append((u, v))
    return made


def matchings(agents: int, edges: list[Edge] | None) -> Steps:
    """All matchings of a round with their chances: of all agents, or by edges in random order; then each way."""
    found: Counter[frozenset[Edge]] = Counter()
    made = _in_order(agents) if edges is None else map(_first_met, permutations(edges))
    for pairs in made:
        found[frozenset(pairs)] += 1
    orders = found.total()
    steps = []
    for some, number in found.items():
        for turned in product((0, 1), repeat=len(some)):
            steps.append(
                (number / orders / 2 ** len(some), [(v, u) if t else (u, v) for t, (u, v) in zip(turned, some)])
            )
    return steps


class PlacedChain:
    """The chain from all placements of a crowd, which are equally likely."""

    def __init__(self, leaf: Leaf, start: Agents, steps: Steps, outcomes: Outcomes, swaps: bool) -> None:
        self.leaf, self.steps, self.swaps = leaf, steps, swaps
        size = len(leaf.states)
        self.made = {(p, q): outcomes(leaf, p, q) for p in range(size) for q in range(size)}
        if swaps:
            for p, q, r, s in leaf.moves:
                if (r, s) == (q, p) and p != q and not self.made[p, q]:
                    self.made[p, q] = [(q, p, 1.0)]
        starts = sorted(set(permutations(start)))
        self.numbers = {one: at for at, one in enumerate(starts)}
        self.all = list(starts)
        rows: list[dict[int, float]] = []
        while len(rows) < len(self.all):
            rows.append(self._row(self.all[len(rows)]))
        self.matrix = np.zeros((len(rows), len(rows)))
        for at, row in enumerate(rows):
            for to, part in row.items():
                self.matrix[at, to] = part
        self.first = np.array([1 / len(starts) if at < len(starts) else 0.0 for at in range(len(rows))])
        self.ends = np.isclose(self.matrix.diagonal(), 1.0)

    def _row(self, agents: Agents) -> dict[int, float]:
        row: dict[int, float] = {}
        for chance, pairs in self.steps:
            for made, part in self._after(list(agents), pairs, chance):
                if made not in self.numbers:
                    self.numbers[made] = len(self.all)
                    self.all.append(made)
                row[self.numbers[made]] = row.get(self.numbers[made], 0.0) + part
        return row

    def _after(self, agents: list[int], pairs: list[Edge], chance: float) -> Iterator[tuple[Agents, float]]:
        if not pairs:
            yield tuple(agents), chance
            return
        (u, v), rest = pairs[0], pairs[1:]
        for r, s, part in self.made[agents[u], agents[v]] or [(agents[u], agents[v], 1.0)]:
            new = agents[:]
            new[u], new[v] = r, s
            yield from self._after(new, rest, chance * part)

    def counts(self, at: int) -> tuple[int, ...]:
        """How many agents are in each state."""
        return tuple(self.all[at].count(state) for state in range(len(self.leaf.states)))

    def times(self, meetings: int) -> tuple[Floats, Floats]:
        """The distribution after so many meetings, and the probability of an end by each."""
        now, kept, ended = self.first, self.first, [float(self.first[self.ends].sum())]
        while ended[-1] < 1 - TAIL and len(ended) < LONGEST:
            now = now @ self.matrix
            if len(ended) == meetings:
                kept = now
            ended.append(float(now[self.ends].sum()))
        return kept, np.array(ended)


def placed_chain(loaded: Loaded, name: str, outcomes: Outcomes) -> tuple[PlacedChain, Placing]:
    """The chain of one of WAYS, and how the simulation makes the same."""
    _, counts, edges, rounds = WAYS[name]
    leaf = loaded.net.leaves[0]
    start = tuple(state for state, k in zip(leaf.inputs, counts) for _ in range(k)) + leaf.helpers
    steps = matchings(len(start), edges) if rounds else single(edges or [])
    graph = Graph("bench", len(start), tuple(edges)) if edges else None
    return PlacedChain(leaf, start, steps, outcomes, edges is not None), Placing(graph, rounds)


def plant() -> None:
    """One meeting in a hundred isn't counted."""
    good = OnGraph._drawn

    def biased(self: OnGraph, total: int) -> int:
        drawn = good(self, total)
        self.meetings -= self.random.random() < BIAS
        return drawn

    setattr(OnGraph, "_drawn", biased)


def runs_of(
    loaded: Loaded, counts: tuple[int, ...], placing: Placing, meetings: int, runs: int, seed: int
) -> tuple[Counter[tuple[int, ...]], list[int]]:
    """The counts after so many meetings, and the last changes."""
    leaf = loaded.net.leaves[0]
    start: dict[tuple[int, ...], int] = {}
    for state, k in [*zip(leaf.inputs, counts), *((state, 1) for state in leaf.helpers)]:
        start[(state,)] = start.get((state,), 0) + k
    found: Counter[tuple[int, ...]] = Counter()
    times = []
    for number in range(runs):
        run = placing.make(loaded.net, start, seed + number)
        go_on(run, None, Limits(MEETINGS, meetings, ENDLESS), ())
        crowd = run.crowd()
        found[tuple(crowd.get((state,), 0) for state in range(len(leaf.states)))] += 1
        run.ended = None
        go_on(run, None, Limits(TERMINAL, LONGEST, ENDLESS), ())
        times.append(run.last_change)
    return found, times


def by_field(runs: int, seed: int, bias: float = 0.0) -> float:
    """The least p-value of the means of decaying agents by the mean field, which is exact for these: of two states at
    three times, among the runs of an ensemble. A bias makes time go faster."""
    loaded = load(DECAY, "decay.crn")
    pace = Pace(loaded.network, Fraction(sum(DECAYING) - 1))
    field = course(loaded, {(0,): DECAYING[0], (2,): DECAYING[1]}, [EVERY * (1 + bias) * k for k in range(TIMES + 1)])
    values: dict[tuple[str, int], list[int]] = {(name, k): [] for name in "AB" for k in range(1, TIMES + 1)}
    for number in range(PARTS):
        made = ensemble(loaded.net, DECAYING, seed + number, runs // PARTS, EVERY, ENDLESS, "decay", pace=pace)
        for (name, k), some in values.items():
            some += [rows[k][made.names.index(name)] for rows in made.rows]
    found = [float(stats.norm.cdf(_far(some, field.of(name)[k]))) for (name, k), some in values.items()]
    return min(1.0, len(found) * min(2 * min(part, 1 - part) for part in found))


def _far(values: list[int], mean: float) -> float:
    """By how many deviations the mean of values is off."""
    return float((np.mean(values) - mean) / (np.std(values) / len(values) ** 0.5))
