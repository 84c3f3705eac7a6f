#!/usr/bin/python3
"""Meetings per second of `run` on threads, beside one worker and beside a plain Rust program with a mutex per shard.

Run from the top of the repository: bench/field.py [--short] Majority with 1,000 and with 65,536 agents, nearly as many
of one kind as of the other, so that the turns are used up. The times are of whole commands, the printing of the
journal included. The plain program does the same work: it has a word of 64 bits for each agent's tuple and a table for
each leaf, makes rounds of the same length, and looks before each round whether the crowd is terminal, first at the
pair that was found last. Its mutexes serve all rounds, its text is reserved, and it keeps each agent's digits. With
one worker both must make the same rounds, byte for byte.
"""

from __future__ import annotations

import math
import os
import subprocess
import sys
import tempfile
import time

import generator
from common import PROGRAM, TOP, few, source

MEETINGS = few(1_000_000, 10_000)

PLAIN = source("plain/field.rs")


def timed(command: list[str], standard_input: str) -> tuple[float, list[bytes]]:
    """The least of three times, and the lines of the rounds."""
    best, lines = math.inf, list[bytes]()
    for _ in range(few(3, 1)):
        with open(standard_input) as given:
            start = time.perf_counter()
            out = subprocess.run(command, stdin=given, stdout=subprocess.PIPE).stdout
            seconds = time.perf_counter() - start
        lines = [line for line in out.split(b"\n") if line.startswith(b"round ") or line[:1].isdigit()]
        best = min(best, seconds)
    return best, lines


def meetings(lines: list[bytes]) -> int:
    return sum(1 for line in lines if line[:1].isdigit())


def main() -> None:
    with tempfile.TemporaryDirectory() as folder:
        source = os.path.join(folder, "plain.rs")
        plain = os.path.join(folder, "plain")
        with open(source, "w") as f:
            f.write(PLAIN + generator.WORDS + generator.NUMERALS)
        subprocess.run(["rustc", "-O", "--edition", "2021", "-o", plain, source], check=True)
        with open(os.path.join(TOP, "examples/majority/bundle.json")) as f:
            bundle = f.read().rstrip("\n")
        given = os.path.join(folder, "input")
        print("| Agents | Workers | Shards | Meetings | pop, per second | plain program, per second |")
        print("|---|---|---|---|---|---|")
        for agents, many in ((1000, (1, 16, 1024)), (65536, (1024,))):
            with open(given, "w") as to:
                to.write(f"{bundle}\ncrowd x={agents // 2 + 1} y={agents // 2 - 1}\n")
            for workers in (1, 2, 4):
                for shards in many:
                    turns = str(MEETINGS // workers)
                    words = ["run", "--workers", str(workers), "--shards", str(shards), "--turns", turns]
                    ours, made = timed([PROGRAM] + words, given)
                    theirs, others = timed([plain, str(workers), str(shards), turns, str(agents)], os.devnull)
                    if workers == 1 and made != others:
                        sys.exit("one worker makes other rounds")
                    rates = f"{meetings(made) / ours:,.0f} | {meetings(others) / theirs:,.0f}"
                    print(f"| {agents} | {workers} | {shards} | {meetings(made)} | {rates} |", flush=True)


main()
