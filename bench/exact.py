#!/usr/bin/python3
"""Holds simulations, and the chains of `pop exact`, against exact Markov chains: chi-square and Kolmogorov-Smirnov.

    /usr/bin/python3 bench/exact.py [RUNS] [-o FILE] [NAME..]

For each protocol the chain of all its crowds is made from the moves alone, here, by no code of the simulation. Then
RUNS runs (200,000) are made each way, by single meetings and by batches. Printed are the p-values: of the crowd after
some meetings, of the meeting of the last change, and of the runs' mean by the mean and the deviation of `pop exact`,
whose chain has to be this one. The line `decay` is of a network in its own time, by the law of independent decays, and
`events` of a crowd of which half goes, and others come (timed.py). Lines `placed` are of graphs and rounds (placed.py),
and `field` has the mean field against an ensemble. A p-value below 0.0001 is a mistake, or a chance of one in ten
thousand. The last lines plant biases of one per cent, which have to be found: into the draws of batches, a network's
clock, the agents that an event takes, the meetings on a graph, and the time of the mean field.
"""

from __future__ import annotations

import argparse
import sys
import time
from collections import Counter
from functools import cache
from multiprocessing import get_context
from pathlib import Path
from typing import Iterator

import numpy as np
from numpy.typing import NDArray
from scipy import sparse, stats

TOP = Path(__file__).resolve().parents[1]
sys.path.insert(0, str(TOP))

from hurleyoak.chain.chains import Chain as Solved  # noqa: E402
from hurleyoak.protocol.nets import Leaf  # noqa: E402
from hurleyoak.protocol.reactions import Reactions  # noqa: E402
from hurleyoak.simulation import batches  # noqa: E402
from hurleyoak.simulation.batches import Batcher  # noqa: E402
from hurleyoak.simulation.simulation import Simulation  # noqa: E402
from hurleyoak.text.files import load, load_path  # noqa: E402
from hurleyoak.text.loaded import Loaded  # noqa: E402

from bench import placed, timed  # noqa: E402

RUNS = 200_000
MOST_CROWDS = 20_000
LEAST_EXPECTED = 20  # of a cell of the chi-square test
TAIL = 1e-7  # of the chain's time that is left out
DENSE = 400  # crowds, up to which a whole matrix is faster
LONGEST = 100_000  # meetings
BIAS = 0.01
DECAYS, EVENTS, FIELD = "decay", "events", "mean field"
BIASED = ("majority", DECAYS, EVENTS, "majority on a ring", FIELD)  # into whose draws it is planted
BIASED_WAY = "biased"
DOUBT = 1e-4
NEAR = 1e-11  # what rounding may make of a chance
FIRST_SEED = 1_000
CELLS = 40  # of the time of the last change

COIN = "inputs x: X  y: Y\nX + Y -> X + U\nX + Y -> U + Y\nX + U -> X + X\nY + U -> Y + Y\nyes X\n"
CHANCE = "inputs x: A  y: B\nA + B -> A + A @ 0.7\nA + B -> B + B @ 0.2\nyes A\n"
ORDER = "inputs x: A  y: B\nA , B -> A , A @ 0.8\nB , A -> B , B\nyes A\n"
PROTOCOLS: dict[str, tuple[str, tuple[int, ...]]] = {
    "majority": ("examples/majority/majority.pop", (3, 5)),
    "epidemic": ("examples/epidemic/epidemic.pop", (1, 8)),
    "flock": ("examples/flock/flock.pop", (6, 3)),
    "remainder": ("examples/remainder/remainder.pop", (5, 3)),
    "threshold": ("examples/threshold/threshold.pop", (4, 3)),
    "exactly-one": ("examples/exactly-one/exactly-one.pop", (3, 4)),
    "mod-three": ("examples/found/mod-three.pop", (3, 2)),
    "average-and-conquer": ("examples/found/average-and-conquer.pop", (4, 3)),
    "coin": (COIN, (5, 4)),
    "chance": (CHANCE, (5, 4)),
    "order": (ORDER, (5, 4)),
}
Crowd = tuple[int, ...]
Floats = NDArray[np.float64]


def outcomes(leaf: Leaf, p: int, q: int) -> list[tuple[int, int, float]]:
    """What an agent in p that begins a meeting with one in q becomes with it, and by which chance; from the moves
    alone."""
    found = []
    for t, (a, b, r, s) in enumerate(leaf.moves):
        law = leaf.laws[t] if leaf.laws else None
        chance = None if law is None else law.chance
        if t not in leaf.active_set and chance is None:
            continue
        if (a, b) == (p, q):
            found.append((r, s, chance))
        elif (b, a) == (p, q) and not (law and law.ordered):
            found.append((s, r, chance))
    given = sum(float(chance) for _, _, chance in found if chance is not None)
    free = sum(chance is None for _, _, chance in found)
    made = [(r, s, (1 - given) / free if chance is None else float(chance)) for r, s, chance in found]
    return made if free or not found else [*made, (p, q, 1 - given)]


class Chain:
    """All crowds that can come up, and the probability of each step among them."""

    def __init__(self, leaf: Leaf, start: Crowd) -> None:
        self.numbers = {start: 0}
        self.crowds = [start]
        made = {(p, q): outcomes(leaf, p, q) for p in range(len(start)) for q in range(len(start))}
        rows, columns, parts = [], [], []
        at = 0
        while at < len(self.crowds):
            for crowd, part in self._steps(self.crowds[at], made):
                rows.append(at)
                columns.append(self._number(crowd))
                parts.append(part)
            at += 1
            if at > MOST_CROWDS:
                raise SystemExit("too many crowds for a chain")
        size = len(self.crowds)
        self.matrix = sparse.csr_matrix((parts, (rows, columns)), shape=(size, size))
        self.ends = np.isclose(self.matrix.diagonal(), 1.0)

    def _number(self, crowd: Crowd) -> int:
        known = self.numbers.setdefault(crowd, len(self.crowds))
        if known == len(self.crowds):
            self.crowds.append(crowd)
        return known

    @staticmethod
    def _steps(
        crowd: Crowd, made: dict[tuple[int, int], list[tuple[int, int, float]]]
    ) -> Iterator[tuple[Crowd, float]]:
        pairs = sum(crowd) * (sum(crowd) - 1)
        for (p, q), options in made.items():
            part = crowd[p] * (crowd[q] - (p == q)) / pairs
            for r, s, chance in (options or [(p, q, 1.0)]) if part > 0 else []:
                new = list(crowd)
                for state, k in ((p, -1), (q, -1), (r, 1), (s, 1)):
                    new[state] += k
                yield tuple(new), part * chance

    def times(self) -> tuple[list[Floats], Floats]:
        """The distributions after 0, 1, .. meetings, as far as they are asked for; the probability of an end by each
        meeting."""
        matrix = self.matrix.toarray() if len(self.crowds) <= DENSE else self.matrix
        now = np.zeros(len(self.crowds))
        now[0] = 1.0
        kept, ended = [now], [float(now[self.ends].sum())]
        while ended[-1] < 1 - TAIL and len(ended) < LONGEST:
            now = now @ matrix
            if len(kept) <= 4 * sum(self.crowds[0]):
                kept.append(now)
            ended.append(float(now[self.ends].sum()))
        return kept, np.array(ended)


class Runs:
    """Runs of one protocol, each from the start anew."""

    def __init__(self, loaded: Loaded, counts: Crowd, by_batches: bool, seed: int) -> None:
        self.run = Simulation(loaded.net, counts, seed)
        self.batcher = Batcher(self.run) if by_batches else None
        run, start = self.run, {word: k for word, k in zip(self.run.words, self.run.counts)}
        self.start = [start.get(word, 0) for word in run.words]
        self.yes = run.yes
        self.states = [word[0] for word in run.words]

    def _go(self, meetings: int) -> None:
        run = self.run
        run.ended = None
        while not run.ended and run.meetings < meetings:
            if self.batcher is None or not self.batcher.burst(10**9, meetings):
                run.burst(10**6, meetings)

    def one(self, meetings: int, states: int) -> tuple[Crowd, int]:
        """The crowd after so many meetings, and the meeting of the last change."""
        run = self.run
        run.counts[:] = [*self.start, *[0] * (len(run.words) - len(self.start))]
        run.sum_anew()
        run.meetings = run.changes = run.last_change = 0
        run.yes = self.yes
        run.since = 0 if run.yes in (0, run.agents) else None
        self._go(meetings)
        crowd = [0] * states
        for word, k in zip(run.words, run.counts):
            crowd[word[0]] += k
        self._go(LONGEST)
        return tuple(crowd), run.last_change


def chi_square(found: Counter[int], expected: Floats, runs: int) -> float:
    """The p-value of counts by number; rare ones are one cell."""
    order = [i for i in np.argsort(-expected) if expected[i] * runs >= LEAST_EXPECTED]
    seen = [float(found[int(i)]) for i in order]
    wanted = [float(expected[i] * runs) for i in order]
    if runs - sum(wanted) > 1:
        seen.append(runs - sum(seen))
        wanted.append(runs - sum(wanted))
    elif sum(seen) < runs:
        return 0.0  # (something was found that can't be)
    return float(stats.chisquare(seen, np.array(wanted) * sum(seen) / sum(wanted)).pvalue) if len(seen) > 1 else 1.0


def by_time(found: list[int], ended: Floats) -> tuple[float, float]:
    """The p-values of the last changes, by chi-square in equal cells and by Kolmogorov-Smirnov (which is cautious for
    whole numbers)."""
    runs = len(found)
    edges = sorted({int(np.searchsorted(ended, part)) for part in np.arange(1, CELLS) / CELLS} | {len(ended) - 1})
    parts = np.diff([0.0, *(ended[edge] for edge in edges)])
    cells = Counter(int(np.searchsorted(edges, time)) for time in found)
    counts = np.bincount(np.minimum(found, len(ended) - 1), minlength=len(ended))
    distance = float(np.abs(np.cumsum(counts) / runs - ended).max())
    return chi_square(cells, parts, runs), float(stats.kstwo.sf(distance, runs))


def off(values: list[int] | list[float], mean: float, deviation: float) -> float:
    """The p-value of the values' mean."""
    far = (sum(values) / len(values) - mean) / (deviation / len(values) ** 0.5)
    return float(2 * stats.norm.sf(abs(far)))


def by_mean(found: list[int], loaded: Loaded, counts: Crowd, chain: Chain, kept: list[Floats]) -> float:
    """The p-value of the runs' mean by what `pop exact` says; 0 where its distributions are others."""
    start, meetings = Reactions(loaded.net).start(counts), len(kept) - 1
    answer = Solved(loaded.net, [start]).answer(start, meetings)
    states = loaded.net.leaves[0].states
    for crowd, chance in answer.after.crowds if answer.after else []:
        at = chain.numbers[tuple(crowd.get(state, 0) for state in states)]
        if abs(float(chance) - kept[meetings][at]) > NEAR:
            return 0.0
    return off(found, float(answer.mean), answer.deviation)


def held(name: str, runs: int, by_batches: bool, seed: int) -> tuple[float, float, float, float]:
    """The p-values of one protocol one way: of the crowd, of the last change two ways, and of its mean."""
    source, counts = PROTOCOLS[name]
    loaded = load(source, name) if "\n" in source else load_path(str(TOP / source))
    leaf = loaded.net.leaves[0]
    start = [0] * len(leaf.states)
    for state, k in [*zip(leaf.inputs, counts), *((state, 1) for state in leaf.helpers)]:
        start[state] += k
    chain = Chain(leaf, tuple(start))
    kept, ended = chain.times()
    meetings = min(sum(start), len(kept) - 1)
    made = Runs(loaded, counts, by_batches, seed)
    crowds: Counter[int] = Counter()
    times = []
    for _ in range(runs):
        crowd, last = made.one(meetings, len(start))
        crowds[chain.numbers.get(crowd, len(chain.crowds))] += 1
        times.append(last)
    mean = by_mean(times, loaded, counts, chain, kept)
    return (chi_square(crowds, kept[meetings], runs), *by_time(times, ended), mean)


def clocked(runs: int, seed: int) -> tuple[float, float, float, float]:
    """The p-values of a network in its own time: of the crowd at a time, of the last change two ways, and its mean."""
    alive, times = timed.decays(runs, seed)
    rate, agents = timed.DECAY_RATE, timed.DECAYING
    law = stats.binom(agents, np.exp(-rate * timed.DECAY_TIME)).pmf(np.arange(agents + 1))
    ended = stats.kstest(times, lambda t: stats.expon(scale=1 / rate).cdf(t) ** agents)
    cells = Counter(int(CELLS * (1 - np.exp(-rate * t)) ** agents) for t in times)
    mean, deviation = timed.decay_by_exact()
    even = np.full(CELLS, 1 / CELLS)
    return (
        chi_square(alive, law, runs),
        chi_square(cells, even, runs),
        float(ended.pvalue),
        off(times, mean, deviation),
    )


def with_events(runs: int, seed: int) -> tuple[float, float, float, float]:
    """The p-values of runs with events: of the crowd, of the last change two ways, and of its mean."""
    leaf = load(timed.EPIDEMIC, "epidemic").net.leaves[0]
    places = [leaf.inputs.index(state) for state in range(len(leaf.states))]

    @cache
    def of(counts: Crowd) -> tuple[list[timed.Law], Floats]:
        chain = Chain(leaf, tuple(counts[place] for place in places))
        kept, ended = chain.times()
        # (laws by counts in the order of the inputs)
        crowds = [tuple(crowd[state] for state in leaf.inputs) for crowd in chain.crowds]
        laws = [{crowd: float(part) for crowd, part in zip(crowds, law)} for law in kept]
        return [*laws, *[laws[-1]] * timed.GOING], ended  # (all is over where it ends)

    law, ended = timed.happening_law(of)
    found, times = timed.happenings(runs, seed)
    numbers = {crowd: at for at, crowd in enumerate(law)}
    cells = Counter({numbers.get(tuple(crowd[state] for state in leaf.inputs), -1): k for crowd, k in found.items()})
    parts = np.diff([0.0, *ended])
    mean = float(parts @ np.arange(len(parts)))
    deviation = float(parts @ (np.arange(len(parts)) - mean) ** 2) ** 0.5
    return (chi_square(cells, np.array([*law.values()]), runs), *by_time(times, ended), off(times, mean, deviation))


def on_places(name: str, runs: int, seed: int) -> tuple[float, float, float, float]:
    """The p-values of agents with places: of the crowd, of the last change two ways, and of its mean."""
    source, counts, *_ = placed.WAYS[name]
    loaded = load(source, name) if "\n" in source else load_path(str(TOP / source))
    chain, placing = placed.placed_chain(loaded, name, outcomes)
    meetings = 2 if placing.rounds else sum(counts)
    kept, ended = chain.times(meetings)
    crowds, times = placed.runs_of(loaded, counts, placing, meetings, runs, seed * runs)
    numbers = {crowd: at for at, crowd in enumerate(sorted({chain.counts(at) for at in range(len(chain.all))}))}
    law = np.zeros(len(numbers))
    for at, part in enumerate(kept):
        law[numbers[chain.counts(at)]] += part
    found = Counter({numbers.get(crowd, len(numbers)): k for crowd, k in crowds.items()})
    parts = np.diff([0.0, *ended])
    mean = float(parts @ np.arange(len(parts)))
    deviation = float(parts @ (np.arange(len(parts)) - mean) ** 2) ** 0.5
    return (chi_square(found, law, runs), *by_time(times, ended), off(times, mean, deviation))


def always() -> None:
    """Batches of any length for crowds of any size."""
    batches.SHORTEST = 1
    setattr(Batcher, "pays", lambda self, most: self.share() > 0)


def plant() -> None:
    """A draw takes one agent more of the first kind, once in a hundred."""
    good = Batcher._good

    def biased(self: Batcher, of: int, bad: int, taken: int) -> int:
        drawn = good(self, of, bad, taken)
        return drawn + int(drawn < min(of, taken) and self.generator.random() < BIAS)

    setattr(Batcher, "_good", biased)


def _task(task: tuple[str, str, int, int]) -> tuple[float, str]:
    """The least p-value of a protocol and a way, and its line of the table."""
    name, way, seed, runs = task
    always()
    if way == BIASED_WAY:
        plant()
        placed.plant()
        timed.plant()
    start = time.process_time()
    if name in placed.WAYS:
        found = on_places(name, runs, seed)
    elif name == FIELD:
        found = (1.0, 1.0, 1.0, placed.by_field(runs, seed, placed.BIAS if way == BIASED_WAY else 0.0))
    elif name in (DECAYS, EVENTS):
        found = clocked(runs, seed) if name == DECAYS else with_events(runs, seed)
    else:
        found = held(name, runs, way != "meetings", seed)
    took = time.process_time() - start
    return (
        min(found),
        f"{name:<20}  {way:<8}  {found[0]:>8.4f}  {found[1]:>11.4f}  {found[2]:>8.4f}  {found[3]:>8.4f}  {took:>7.0f}",
    )


def tasks_of(names: list[str], runs: int) -> list[tuple[str, str, int, int]]:
    """The lines of the table: a name, a way, a seed and how many runs."""
    tasks = [
        (name, way, FIRST_SEED + at, runs) for at, name in enumerate(PROTOCOLS) for way in ("meetings", "batches")
    ]
    tasks += [(DECAYS, "own time", FIRST_SEED, runs), (EVENTS, "meetings", FIRST_SEED, runs)]
    tasks += [(name, "placed", FIRST_SEED + at, runs) for at, name in enumerate(placed.WAYS)]
    tasks += [(FIELD, "field", FIRST_SEED, runs)]
    # (with fewer runs so small a bias may hide)
    tasks += [(name, BIASED_WAY, 1, max(runs, RUNS)) for name in BIASED]
    return [task for task in tasks if not names or task[0] in names]


def main() -> int:
    """Prints the table; 1 where a p-value is too small, or the bias isn't found."""
    words = argparse.ArgumentParser(description=__doc__, formatter_class=argparse.RawDescriptionHelpFormatter)
    words.add_argument("runs", nargs="?", type=int, default=RUNS)
    words.add_argument("names", nargs="*", default=[])
    words.add_argument("-o", "--output", type=Path)
    words.add_argument("--jobs", type=int, default=1, help="processes at once")
    given = words.parse_args()
    lines = [
        f"# p-values against exact chains, {given.runs:,} runs each (bench/exact.py)",
        f"{'protocol':<20}  {'way':<8}  {'crowd':>8}  {'last change':>11}  {'by KS':>8}  {'mean':>8}  {'seconds':>7}",
    ]
    print("\n".join(lines), flush=True)
    tasks = tasks_of(given.names, given.runs)
    least: list[float] = []
    # (each task has a process of its own, so that the planted bias stays there)
    with get_context("spawn").Pool(given.jobs, maxtasksperchild=1) as pool:
        for value, line in pool.imap(_task, tasks):
            least.append(value)
            lines.append(line)
            print(line, flush=True)
            if given.output:
                given.output.write_text("\n".join(lines) + "\n")
    return int(any((value < DOUBT) != (way == BIASED_WAY) for value, (_, way, *_) in zip(least, tasks)))


if __name__ == "__main__":
    sys.exit(main())
