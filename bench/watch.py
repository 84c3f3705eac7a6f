#!/usr/bin/python3
"""Counts the meetings of `watch` of the built program beside those of `run`, and replays what `watch` wrote.

Run from the top of the repository: bench/watch.py [--short] Both run a certified epidemic with 1,000 agents, one of
them infected, by four workers with 20 seeds; `watch` must need fewer meetings on average. Then `replay --watched` must
count the meetings of each of 100 watched runs, by 1 to 63 workers.
"""

from __future__ import annotations

import json
import os
import subprocess
import sys

from common import PROGRAM, TOP, expect_program, few

CROWD = "crowd x=1 y=999"
TURNS = 20_000
WORKERS = 4
SEEDS = few(20, 2)
REPLAYS = few(100, 3)
WATCHED_WORKERS = 63


def head() -> bytes:
    """The two input lines."""
    with open(os.path.join(TOP, "examples/epidemic/bundle.json")) as f:
        bundle = json.load(f)
    return (json.dumps(bundle, separators=(",", ":")) + "\n" + CROWD + "\n").encode()


def written(command: str, workers: int, seed: int) -> bytes:
    """The text of a run that comes to its verdict."""
    words = [PROGRAM, command, "--workers", str(workers), "--turns", str(TURNS), "--seed", str(seed)]
    done = subprocess.run(words, input=head(), stdout=subprocess.PIPE)
    if done.returncode != 0 or not done.stdout.endswith(b"\nverdict true\n"):
        sys.exit(f"{' '.join(words)}: status {done.returncode}, {done.stdout[-60:]!r}")
    return done.stdout


def meetings(text: bytes) -> int:
    """How many meeting lines a text has: the only ones that begin with a digit."""
    return sum(1 for line in text.split(b"\n") if line[:1].isdigit())


def average(command: str) -> float:
    return sum(meetings(written(command, WORKERS, seed)) for seed in range(SEEDS)) / SEEDS


def expect_held(workers: int, seed: int) -> None:
    """Ends the bench where the replay of a watched run does not count its meetings."""
    text = written("watch", workers, seed)
    done = subprocess.run([PROGRAM, "replay", "--watched"], input=text, stdout=subprocess.PIPE)
    wanted = f"holds {meetings(text)}\n".encode()
    if done.returncode != 0 or done.stdout != wanted:
        sys.exit(f"{workers} workers, seed {seed}: {done.stdout[:200]!r} for {wanted!r}")


def main() -> None:
    expect_program()
    whole, watched = average("run"), average("watch")
    print(
        f"epidemic, 1,000 agents, {WORKERS} workers, {SEEDS} seeds: run {whole:,.0f} meetings on average, "
        f"watch {watched:,.0f}, {watched / whole:.2f} of them"
    )
    print(f"watched\t{WORKERS}\t{SEEDS}\t{whole:.0f}\t{watched:.0f}")
    if watched >= whole:
        sys.exit("watch needs no fewer meetings")
    for number in range(REPLAYS):
        expect_held(1 + number % WATCHED_WORKERS, number)
    print(f"{REPLAYS} watched runs by 1 to {WATCHED_WORKERS} workers: replay --watched counts the meetings of each")


main()
