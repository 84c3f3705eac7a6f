#!/usr/bin/python3
"""How often meetings that follow one another have no agent in common, in runs on threads and in runs by one worker.

Run from the top of the repository: bench/neighbours.py [--short] A crowd of 7 agents: of two pairs that are drawn at
random 10 in 21 are disjoint, 47.6 percent. Workers wait for each other at locks, so where the worker changes in the
journal the share is greater. Printed are the share, and by how many standard deviations it is off.
"""

from __future__ import annotations

import math
import os
import subprocess
from collections.abc import Iterator

from common import PROGRAM, TOP, expect_program, few

AGENTS, WORKERS = 7, 4
FAIR = math.comb(AGENTS - 2, 2) / math.comb(AGENTS, 2)
TURNS, RUNS = few(20_000, 500), few(10, 1)


def meetings(workers: int, shards: int, seed: int) -> Iterator[tuple[int, int, int]]:
    """The worker and the two agents of each meeting of a run, round by round."""
    with open(os.path.join(TOP, "examples/majority/bundle.json"), "rb") as file:
        data = file.read() + b"crowd x=4 y=3\n"
    words = ["run", "--workers", str(workers), "--shards", str(shards), "--turns", str(TURNS), "--seed", str(seed)]
    text = subprocess.run([PROGRAM, *words], input=data, capture_output=True, check=False).stdout.decode()
    for line in text.split("\n"):
        parts = line.split()
        if len(parts) >= 3 and all(part.isdigit() for part in parts[:3]):
            yield int(parts[0]), int(parts[1]), int(parts[2])


def share(workers: int, shards: int, is_other: bool) -> tuple[int, int]:
    """How many neighbouring meetings there are, by two workers or by one, and how many of them are disjoint."""
    pairs = disjoint = 0
    for seed in range(RUNS):
        before: tuple[int, int, int] | None = None
        for now in meetings(workers, shards, seed):
            if before and (before[0] != now[0]) == is_other:
                pairs += 1
                disjoint += not {before[1], before[2]} & {now[1], now[2]}
            before = now
    return pairs, disjoint


def main() -> None:
    expect_program()
    for told, workers, shards, is_other in (
        ("one worker", 1, 16, False),
        ("four workers, one shard, the worker changes", WORKERS, 1, True),
        ("four workers, 16 shards, the same worker", WORKERS, 16, False),
        ("four workers, 16 shards, the worker changes", WORKERS, 16, True),
    ):
        pairs, disjoint = share(workers, shards, is_other)
        off = (disjoint - FAIR * pairs) / math.sqrt(FAIR * (1 - FAIR) * pairs) if pairs else 0.0
        part = 100 * disjoint / pairs if pairs else 0.0
        print(f"neighbours\t{told}\t{pairs}\t{part:.1f} of 100\t{off:+.1f}", flush=True)


main()
