#!/usr/bin/python3
"""Doubles the work of each command, and prints the processor time beside it.

Run from the top of the repository: bench/growth.py [--short] `check` against the width of a compiled leaf, whose moves
and terms grow with its square; `play` against meeting lines, `run` against turns, `replay` against the lines of what
`run` printed. The best of three runs each.
"""

from __future__ import annotations

import os
import resource
import subprocess
from collections.abc import Iterable, Iterator

from common import PROGRAM, TOP, expect_program, few

# an amount of work, and its seconds
Step = tuple[int, float]
MAJORITY = os.path.join(TOP, "examples/majority")


def timed(words: list[str], data: bytes) -> tuple[bytes, float]:
    """The text, and the seconds of a processor."""
    before = resource.getrusage(resource.RUSAGE_CHILDREN)
    done = subprocess.run([PROGRAM, *words], input=data, stdout=subprocess.PIPE)
    after = resource.getrusage(resource.RUSAGE_CHILDREN)
    return done.stdout, after.ru_utime + after.ru_stime - before.ru_utime - before.ru_stime


def best(words: list[str], data: bytes) -> tuple[bytes, float]:
    runs = [timed(words, data) for _ in range(few(3, 1))]
    return runs[0][0], min(seconds for _, seconds in runs)


def table(name: str, unit: str, steps: Iterable[Step]) -> None:
    """A row for each step; `per` is the time for one unit of the work."""
    print(f"| `{name}`: {unit} | Seconds | Nanoseconds each |")
    print("|---|---|---|")
    for work, seconds in steps:
        print(f"| {work:,} | {seconds:.3f} | {seconds / work * 1e9:.0f} |", flush=True)
        print(f"growth\t{name}\t{unit}\t{work}\t{seconds / work * 1e9:.0f}")
    print()


def checks() -> Iterator[Step]:
    for width in few((10, 20, 40, 80), (10, 20)):
        bundle, _ = timed(["compile"], f"vars x y\nx - y < {width - 1}\n".encode())
        moves = bundle.split(b'"moves":[[')[1].split(b"]]")[0].count(b"],[") + 1
        yield moves, best(["check"], bundle)[1]


def plays() -> Iterator[Step]:
    with open(os.path.join(MAJORITY, "net.json"), "rb") as file:
        net = file.read()
    for lines in few((500_000, 1_000_000, 2_000_000), (5_000, 10_000)):
        yield lines, best(["play"], net + b"crowd x=501 y=499\n" + b"17 420\n" * lines)[1]


def runs_and_replays() -> tuple[list[Step], list[Step]]:
    with open(os.path.join(MAJORITY, "bundle.json"), "rb") as file:
        data = file.read() + b"crowd x=501 y=500\n"
    runs: list[Step] = []
    replays: list[Step] = []
    for turns in few((250_000, 500_000, 1_000_000), (5_000, 10_000)):
        journal, seconds = best(["run", "--turns", str(turns)], data)
        lines = journal.count(b"\n")
        runs.append((lines, seconds))
        replays.append((lines, best(["replay"], journal)[1]))
    return runs, replays


def main() -> None:
    expect_program()
    table("check", "moves of the leaf", checks())
    table("play", "meeting lines", plays())
    runs, replays = runs_and_replays()
    table("run", "lines of the journal", runs)
    table("replay", "lines of the journal", replays)


if __name__ == "__main__":
    main()
