#!/usr/bin/python3
"""Where the time of `run` goes, by part: samples of Linux's `perf`, put to the parts that their functions belong to.

Run from the top of the repository: bench/parts.py Majority with 65,536 agents, 1,024 shards and 1,000,000 meetings.
The parts of each run add up to 100 percent of the processors' time.
"""

from __future__ import annotations

import os
import subprocess
import tempfile
from collections import defaultdict

from common import PROGRAM, TOP, few

AGENTS = 65_536
SHARDS = 1_024
MEETINGS = few(1_000_000, 10_000)
WORKERS = (1, 2, 4)

# The first part with a word that a function's name has.
PARTS = [
    ("waiting for a lock", ["sched_yield", "__schedule", "finish_task_switch", "schedule", "futex"]),
    (
        "meetings: picks, words, locks and ticket",
        ["Picker", "work::work", "play_round", "Field::meet", "Field::lock", "unlock", "Crowd::meet", "Net::react"],
    ),
    ("opening the field of a round", ["Field::open", "words_of", "layout"]),
    ("closing it: the logs by ticket", ["Field::close", "Field::join", "run_round"]),
    ("the test of the end", ["enabled_pair", "restless", "partner"]),
    ("starting and ending threads", ["clone", "pthread", "mmap", "exit", "thread"]),
    (
        "text",
        [
            "itoa",
            "push_number",
            "extend_from_slice",
            "Vec::grow",
            "run_output",
            "tally",
            "memmove",
            "push_",
            "rep_movs",
        ],
    ),
]
REST = "reading, checking, memory, the rest"


def part_of(name: str) -> str:
    return next((part for part, words in PARTS if any(word in name for word in words)), REST)


def shares(folder: str, workers: int, given: str) -> dict[str, float]:
    """The percentage of each part."""
    data = os.path.join(folder, "data")
    words = ["run", "--workers", str(workers), "--shards", str(SHARDS), "--turns", str(MEETINGS // workers)]
    with open(given) as lines:
        record = ["perf", "record", "-q", "-e", "cpu-clock", "-F", "10000", "-o", data, PROGRAM]
        subprocess.run(record + words, stdin=lines, stdout=subprocess.DEVNULL, stderr=subprocess.DEVNULL)
    report = ["perf", "report", "-i", data, "--stdio", "--no-children", "-F", "overhead,symbol"]
    found: dict[str, float] = defaultdict(float)
    for line in subprocess.run(report, capture_output=True, text=True).stdout.splitlines():
        share, _, name = line.strip().partition("%")
        if name and not line.startswith("#"):
            found[part_of(name)] += float(share)
    return found


def main() -> None:
    with tempfile.TemporaryDirectory() as folder:
        given = os.path.join(folder, "input")
        with open(os.path.join(TOP, "examples/majority/bundle.json")) as bundle, open(given, "w") as to:
            to.write(f"{bundle.read().rstrip()}\ncrowd x={AGENTS // 2 + 1} y={AGENTS // 2 - 1}\n")
        runs = [shares(folder, workers, given) for workers in WORKERS]
    print("| Part | " + " | ".join(f"{workers} workers" if workers > 1 else "1 worker" for workers in WORKERS) + " |")
    print("|---|" + "---|" * len(WORKERS))
    for part in [part for part, _ in PARTS] + [REST]:
        print(f"| {part} | " + " | ".join(f"{run[part]:.0f}" for run in runs) + " |")


main()
