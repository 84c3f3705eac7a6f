#!/usr/bin/python3
"""How soon compiled nets come to their end, at ties, near them and far from them, into docs/develop/performance.md.

Run from the top of the repository: bench/fast.py [--short] [--kept]. A row is kept in bench/results/fast.txt as soon as
it is there; --kept writes these into the document, and measures nothing. With --short a part is printed, and nothing is
written. Meetings are those to the last change, by a simulator in C (bench/plain/silence.c), which is held against an
exact chain first: the median of seven runs, divided by the square of the number of agents, helpers among them.
"""

from __future__ import annotations

import os
import random
import re
import statistics
import sys
from collections.abc import Iterator
from dataclasses import dataclass, field

from common import IS_SHORT, TOP, WORDS, expect_program, few, heading, write_between
from made import NAMES, PLAIN, SUCCINCT, WORKBENCH, net_by, rows_of, sizes_of, told_of
from silence import NO_END, meetings_of, squares, told

from hurleyoak.proof.bundles import Bundle
from hurleyoak.protocol.predicatereader import read_predicate
from hurleyoak.protocol.predicates import value_at
from hurleyoak.simulation.chains import longest

KEPT = os.path.join(TOP, "bench/results/fast.txt")
SIZES = few([64, 1024, 8192, 65536], [64])
RUNS = few(7, 3)
SPREAD_SIZES = few([1024, 8192], [128])
COMPARISONS = few(40, 2)
FAST, SLOW = 8, 20  # n^2
CHAIN_AGENTS = 7
ERRORS = 4  # standard ones
TIE, BELOW = "tie", "one less"
BOTH = (SUCCINCT, WORKBENCH)
ALL = (PLAIN, SUCCINCT, WORKBENCH)
# a predicate, its inputs by a word or by the share of x in the crowd, and who makes the net
Case = tuple[str, list[str | float], tuple[str, ...]]
CASES: list[Case] = [
    ("x - y < 1", [TIE, BELOW, 2 / 3], ALL),
    ("x - y < 10", [TIE, 2 / 3], ALL),
    ("x - y < 1000", [TIE, BELOW, 0.5], BOTH),
    ("x - y < 1000000", [0.5, 1.0], BOTH),
    ("3*x - 2*y < 500", [TIE, 0.5], BOTH),
    ("7*x - 100*y < 13", [TIE, 0.5], BOTH),
    ("682*x - 865*y < 100", [TIE, 0.1], BOTH),
    ("2147483647*x - 2147483645*y < 1000", [TIE, 1.0], BOTH),
    ("x + 2*y = 1 mod 5", [0.5, 1.0], BOTH),
    ("x + 2*y = 7 mod 20", [0.5, 1.0], BOTH),
    ("x + 2*y = 7 mod 60", [0.5, 1.0], BOTH),
    ("x + 2*y = 7 mod 200", [0.5, 1.0], BOTH),
    ("x >= 1000", [TIE, 1.0], BOTH),
    ("5*x >= 1000", [TIE, 1.0], BOTH),
    ("7*x + 11*y >= 1000000", [0.5], BOTH),
    ("173*x + 5*y >= 100000000", [1.0], BOTH),
]
SPEED_HEAD = ["Predicate", "Input", "Made by", "States, moves, helpers", *(f"n = {agents:,}" for agents in SIZES)]
SPREAD_HEAD = [
    "n",
    "Made by",
    "Inputs",
    f"Above {FAST} n^2",
    f"Above {SLOW} n^2",
    "Median",
    "Nine tenths",
    "Greatest",
    "No end",
]


def counts_at(predicate: str, at: str | float, agents: int) -> tuple[int, int] | None:
    """So many agents of x and y: those at which more x would change the value, or that share of x."""
    if isinstance(at, float):
        return round(at * agents), agents - round(at * agents)
    tree = read_predicate(predicate, NAMES)
    low, high = 0, agents
    first = value_at(tree, (0, agents))
    if value_at(tree, (agents, 0)) == first:
        return None
    while high - low > 1:
        middle = (low + high) // 2
        low, high = (middle, high) if value_at(tree, (middle, agents - middle)) == first else (low, middle)
    x = low if at == BELOW else high
    return x, agents - x


def named(at: str | float) -> str:
    """The input in words."""
    if isinstance(at, str):
        return at
    return {1.0: "x alone", 0.5: "half"}.get(at, "x = 2y" if at > 0.5 else "a tenth of x")


@dataclass
class Row:
    """A net at an input, and what was measured at each size so far."""

    predicate: str
    at: str | float
    maker: str
    bundle: Bundle
    cells: list[str] = field(default_factory=list)

    def measure(self, agents: int) -> None:
        """The figure at one size more."""
        counts = counts_at(self.predicate, self.at, agents)
        self.cells.append(told(squares(self.bundle.net.leaves[0], counts, RUNS)) if counts else NO_END)

    @property
    def line(self) -> list[str]:
        """The row of the table; a size that wasn't reached has an empty cell."""
        sizes = ", ".join(map(str, sizes_of(self.bundle)))
        missing = [""] * (len(SIZES) - len(self.cells))
        return [told_of(self.predicate), named(self.at), self.maker, sizes, *self.cells, *missing]


def speed_rows() -> list[Row]:
    """For each input the nets of the makers; nothing is measured yet."""
    rows = []
    for predicate, inputs, makers in few(CASES, CASES[:1]):
        nets = [(maker, net_by(maker, predicate)) for maker in makers]
        rows += [Row(predicate, at, maker, net) for at in inputs for maker, net in nets if net is not None]
    return rows


def comparisons() -> Iterator[tuple[str, list[float]]]:
    """Random comparisons, each with the shares of x of its inputs: at a tie of the terms, half, x alone, a tenth."""
    rng = random.Random(1)
    for _ in range(COMPARISONS):
        a = rng.randint(1, 1 << rng.choice([1, 2, 3, 5, 7, 10, 16]))
        b = rng.randint(1, 1 << rng.choice([1, 3, 5, 7, 10]))
        bound = rng.choice([0, 1, 2, 13, 100, 1000, 1 << 16])
        yield f"{a}*x - {b}*y < {bound}", [b / (a + b), 0.5, 1.0, 0.1]


def spread_of(maker: str, agents: int) -> list[float | None]:
    """The figures of all random inputs."""
    found = []
    for predicate, shares in comparisons():
        bundle = net_by(maker, predicate)
        for share in shares if bundle else []:
            counts = counts_at(predicate, float(share), agents)
            found.append(squares(bundle.net.leaves[0], counts, RUNS) if bundle and counts else None)
    return found


def spread_rows() -> Iterator[list[str]]:
    """For each size and both makers how the figures are spread."""
    for agents in SPREAD_SIZES:
        for maker in BOTH:
            found = spread_of(maker, agents)
            ended = sorted(share for share in found if share is not None)
            above = [str(sum(share is None or share > most for share in found)) for most in (FAST, SLOW)]
            cells = [statistics.median(ended), ended[len(ended) * 9 // 10], ended[-1]]
            yield [f"{agents:,}", maker, str(len(found)), *above, *map(told, cells), str(len(found) - len(ended))]


def hold_against_chain() -> None:
    """Ends the bench where the simulator's mean is far from the exact one."""
    bundle = net_by(WORKBENCH, "x - y < 2")
    exact = longest(bundle.net.leaves[0], CHAIN_AGENTS) if bundle else None
    if bundle is None or exact is None:
        sys.exit("there is no exact chain")
    runs = few(20_000, 2_000)
    found = meetings_of(bundle.net.leaves[0], exact.counts, runs) or []
    mean = statistics.mean(found)
    off = abs(mean - exact.meetings) / (statistics.stdev(found) / runs**0.5)
    print(f"exact {exact.meetings:.3f}, by {runs} runs {mean:.3f}: {off:.1f} standard errors", file=sys.stderr)
    if off > ERRORS:
        sys.exit("the simulator is far from the exact chain")


def kept() -> list[str]:
    """The tables that were kept."""
    with open(KEPT) as file:
        return re.sub(r"\A(?!\|)(.+\n)+\n", "", file.read()).rstrip("\n").split("\n")


def keep(head: list[str], rows: list[Row], spread: list[list[str]]) -> None:
    """Keeps both tables."""
    lines = [*head, "", *rows_of(SPEED_HEAD, [row.line for row in rows]), "", *rows_of(SPREAD_HEAD, spread)]
    with open(KEPT, "w") as file:
        file.write("\n".join(lines) + "\n")


def measure() -> None:
    """Measures all rows at the smaller sizes, then the spread, then the rows at the greatest size."""
    hold_against_chain()
    head, rows, spread = heading(), speed_rows(), list[list[str]]()

    def done(line: list[str]) -> None:
        print(" | ".join(line), file=sys.stderr, flush=True)
        if not IS_SHORT:
            keep(head, rows, spread)

    for size in [*SIZES[:-1], None, SIZES[-1]]:
        if size is None:
            for line in spread_rows():
                spread.append(line)
                done(line)
            continue
        for row in rows:
            row.measure(size)
            done(row.line)


def main() -> None:
    if "--kept" not in WORDS:
        expect_program()
        measure()
    if not IS_SHORT:
        write_between("develop/performance.md", "fast", kept())


if __name__ == "__main__":
    main()
