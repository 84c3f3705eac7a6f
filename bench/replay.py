#!/usr/bin/python3
"""Takes the processor time of `replay` of the built program beside a plain Rust program that does the same work.

Run from the top of the repository: bench/replay.py Both read and verify the journal of 1,000,000 meetings of majority
with 1,000 agents, by one worker and by four, and must say the same; the time of the run by one worker stands beside.
The built program reads a bundle and checks its proof first, which the plain one does not. A journal whose last line is
changed must be told by both at its line.
"""

from __future__ import annotations

import json
import os
import subprocess
import sys
import tempfile

import generator
from common import PROGRAM, TOP, expect_program, few, row, run_apart, source

AGENTS = [501, 499]

PLAIN = source("plain/replay.rs")


def timed(command: list[str], standard_input: str, standard_output: str) -> tuple[float, int]:
    with open(standard_input) as source, open(standard_output, "wb") as sink:
        return run_apart(command, source, sink)[1:3]


def best(command: list[str], standard_input: str, standard_output: str) -> tuple[float, int]:
    """The least time of five runs, and the memory of the first."""
    runs = [timed(command, standard_input, standard_output) for _ in range(few(5, 1))]
    return min(run[0] for run in runs), runs[0][1]


def contents(path: str) -> bytes:
    with open(path, "rb") as f:
        return f.read()


def change_last_line(journal: str) -> None:
    """Only its end is read: a child's peak of memory counts what this program held when it began."""
    with open(journal, "r+b") as f:
        f.seek(-100, os.SEEK_END)
        end = f.read().rstrip(b"\n")
        f.seek(-100 + end.rindex(b"\n") + 1, os.SEEK_END)
        f.truncate()
        f.write(b"verdict maybe\n")


def both_say(journal: str, plain: str, folder: str) -> tuple[bytes, tuple[float, int], tuple[float, int]]:
    """What the two programs say of a journal, with their times and memory."""
    ours, theirs = os.path.join(folder, "ours"), os.path.join(folder, "theirs")
    our_figures = best([PROGRAM, "replay"], journal, ours)
    plain_figures = best([plain] + [str(n) for n in AGENTS], journal, theirs)
    if contents(ours) != contents(theirs):
        sys.exit(f"pop says {contents(ours)!r}, plain {contents(theirs)!r}")
    return contents(ours), our_figures, plain_figures


def measure(workers: int, plain: str, folder: str) -> None:
    head = os.path.join(folder, "head")
    with open(os.path.join(TOP, "examples/majority/bundle.json")) as f:
        bundle = json.dumps(json.load(f), separators=(",", ":"))
    with open(head, "w") as f:
        f.write(f"{bundle}\ncrowd x={AGENTS[0]} y={AGENTS[1]}\n")
    journal = os.path.join(folder, "journal")
    turns = few(1_000_000, 10_000) // workers
    run_time, _ = timed([PROGRAM, "run", "--workers", str(workers), "--turns", str(turns)], head, journal)
    said, (our_time, memory), (plain_time, plain_memory) = both_say(journal, plain, folder)
    size = os.path.getsize(journal)
    print(
        f"{workers} workers, {size} bytes, {said.decode().strip()}: pop {our_time:.3f} s, plain {plain_time:.3f} s,"
        f" ratio {our_time / plain_time:.2f}, the run {run_time:.2f} s; memory: pop {memory / size:.1f} times the"
        f" bytes, plain {plain_memory / size:.1f}"
    )
    work = (
        f"{turns * workers:,} meetings of {sum(AGENTS):,} agents by {workers} worker{'s' if workers > 1 else ''},"
        f" {size / 1e6:.1f} MB"
    )
    row("replay", work, our_time, plain_time, f"{memory / size:.1f} times the input")
    change_last_line(journal)
    said, _, _ = both_say(journal, plain, folder)
    if not said.startswith(b"differs "):
        sys.exit("a changed last line holds")


def main() -> None:
    expect_program()
    with tempfile.TemporaryDirectory() as folder:
        source = os.path.join(folder, "plain.rs")
        plain = os.path.join(folder, "plain_program")
        with open(source, "w") as f:
            f.write(PLAIN + generator.WORDS)
        subprocess.run(["rustc", "-O", "--edition", "2021", "-A", "warnings", "-o", plain, source], check=True)
        for workers in (1, 4):
            measure(workers, plain, folder)


main()
