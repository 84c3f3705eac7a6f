#!/usr/bin/python3
"""Holds the kernel against exact Markov chains, each way and by the choice: chi-square and Kolmogorov-Smirnov.

    /usr/bin/python3 bench/kernel.py [RUNS] [-o FILE] [NAME..]

The protocols are those of exact.py, whose chains are made from the moves alone, and two whose chances have unlike
denominators. Of each, RUNS runs (200,000) are made by agents, by counts and by the choice. Printed are the p-values: of
the crowd after some meetings, and of the meeting of the last change. A p-value below 0.0001 is a mistake, or a chance
of one in ten thousand. The last line plants a bias of one per cent into a chance, which has to be found.
"""

from __future__ import annotations

import argparse
import sys
import time
from collections import Counter
from pathlib import Path

TOP = Path(__file__).resolve().parents[1]
sys.path.insert(0, str(TOP))
sys.path.insert(0, str(TOP / "bench"))

import exact  # noqa: E402
from hurleyoak.engine.kernel import Kernel, go_line  # noqa: E402
from hurleyoak.protocol.reactions import Reactions  # noqa: E402
from hurleyoak.simulation.tables import table_of  # noqa: E402
from hurleyoak.text.files import load, load_path  # noqa: E402
from hurleyoak.text.loaded import Loaded  # noqa: E402

RUNS = 200_000
TOGETHER = 200  # runs that are asked for at once
MOST = 10**15  # changes, words and draws
WAYS = {"choice": 0, "agents": 1, "counts": 2}  # and their numbers for the kernel
RARE = "inputs x: A  y: B\nA + A -> B + B @ 1/50\nA + B -> A + A\nB + B -> B + A @ 1/7\nyes A\n"
CYCLE = "inputs x: A  y: B z: C\nA + B -> A + A @ 0.25\nB + C -> B + B\nC + A -> C + C @ 0.5\nyes A\n"
PROTOCOLS = {**exact.PROTOCOLS, "rare": (RARE, (5, 4)), "cycle": (CYCLE, (4, 3, 3))}
ENDLESS = ("rare",)  # they never end: the crowd alone is looked at
BIASED = ("chance", exact.CHANCE.replace("0.7", "0.707"))
Crowd = tuple[int, ...]


def loaded_of(source: str, name: str) -> Loaded:
    """A protocol from its text, or from a file of the repository."""
    return load(source, name) if "\n" in source else load_path(str(TOP / source))


class Runs:
    """Runs of one crowd by one way."""

    def __init__(self, kernel: Kernel, loaded: Loaded, counts: Crowd, way: str) -> None:
        start = Reactions(loaded.net).start(counts)
        self.kernel, self.table = kernel, table_of(loaded.net, list(start))
        self.states = len(loaded.net.leaves[0].states)
        kernel.begin(self.table.begin(start))
        kernel.send(f"way {WAYS[way]}\n")

    def crowd(self, counts: list[int]) -> Crowd:
        """The counts by the leaf's states."""
        out = [0] * self.states
        for word, k in zip(self.table.words, counts):
            out[word[0]] += k
        return tuple(out)

    def made(self, seeds: range, meetings: int, longest: int) -> list[tuple[Crowd, int]]:
        """Of each seed the crowd after so many meetings, and the meeting of the last change."""
        for seed in seeds:
            goals = [go_line(goal, MOST, (False, False), MOST) for goal in (meetings, longest)]
            self.kernel.send("".join([f"run {seed}\n", *goals]))
        self.kernel.tell()
        answers = [(self.kernel.answer()[1], self.kernel.answer()[1]) for _ in seeds]
        return [(self.crowd(first.counts), last.last_change) for first, last in answers]


def held(kernel: Kernel, name: str, way: str, runs: int, seed: int, biased: str = "") -> tuple[float, ...]:
    """The p-values of one protocol by one way: of the crowd, and of the last change two ways. With a text, its runs are
    held against the chain of the protocol."""
    source, counts = PROTOCOLS[name]
    loaded = loaded_of(source, name)
    leaf = loaded.net.leaves[0]
    start = [0] * len(leaf.states)
    for state, k in [*zip(leaf.inputs, counts), *((state, 1) for state in leaf.helpers)]:
        start[state] += k
    chain = exact.Chain(leaf, tuple(start))
    kept, ended = chain.times()
    meetings = min(sum(start), len(kept) - 1)
    made = Runs(kernel, load(biased, name) if biased else loaded, counts, way)
    crowds: Counter[int] = Counter()
    times = []
    for first in range(0, runs, TOGETHER):
        seeds = range(seed + first, seed + min(runs, first + TOGETHER))
        for crowd, last in made.made(seeds, meetings, meetings if name in ENDLESS else exact.LONGEST):
            crowds[chain.numbers.get(crowd, len(chain.crowds))] += 1
            times.append(last)
    of_crowd = exact.chi_square(crowds, kept[meetings], runs)
    return (of_crowd,) if name in ENDLESS else (of_crowd, *exact.by_time(times, ended))


def main() -> int:
    given = argparse.ArgumentParser(description=__doc__, formatter_class=argparse.RawDescriptionHelpFormatter)
    given.add_argument("runs", nargs="?", type=int, default=RUNS)
    given.add_argument("names", nargs="*")
    given.add_argument("-o", "--output")
    words = given.parse_args()
    lines, least, began, kernel = [f"# {words.runs:,} runs each way"], 1.0, time.process_time(), Kernel()
    for number, name in enumerate(words.names or PROTOCOLS):
        for way in WAYS:
            found = held(kernel, name, way, words.runs, (len(WAYS) * number + WAYS[way]) * 10**7)
            least = min(least, *found)
            lines.append(f"{name:<20} {way:<8} " + " ".join(f"{p:>8.4f}" for p in found))
            print(lines[-1], flush=True)
    bias = min(held(kernel, BIASED[0], "choice", words.runs, 10**12, BIASED[1]))
    lines.append(f"least p-value {least:.6f}; with a planted bias of one per cent {bias:.3g}")
    print(lines[-1])
    if words.output:
        Path(words.output).write_text("\n".join(lines) + "\n", encoding="utf-8")
    print(f"{time.process_time() - began:.0f} processor seconds of Python", file=sys.stderr)
    return int(least < exact.DOUBT or bias >= exact.DOUBT)


if __name__ == "__main__":
    sys.exit(main())
