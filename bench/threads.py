#!/usr/bin/python3
"""Takes the seconds of all processors, and the page faults, of `run` by one, two and four workers.

Run from the top of the repository: bench/threads.py [--short]
Majority with 65,536 agents and 1,024 shards, 1,000,000 meetings, the journal among it; the least of fifteen runs each.
"""

from __future__ import annotations

import os

from common import PROGRAM, TOP, expect_program, few, least

MEETINGS = few(1_000_000, 10_000)


def main() -> None:
    expect_program()
    with open(os.path.join(TOP, "examples/majority/bundle.json"), "rb") as file:
        data = file.read() + b"crowd x=32769 y=32767\n"
    for workers in (1, 2, 4):
        words = ["run", "--workers", str(workers), "--shards", "1024", "--turns", str(MEETINGS // workers)]
        _, seconds, _, faults = least([PROGRAM, *words], data, few(15, 1))
        print(f"threads\t{workers}\t{seconds:.3f}\t{faults}", flush=True)


main()
