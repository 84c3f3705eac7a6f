#!/usr/bin/python3
"""Takes the processor time of `play` of the built program beside a plain Rust program that does the same work.

Run from the top of the repository: bench/play.py [--short] Both play 2,000,000 and 16,000,000 meeting lines of
majority with 1,000 agents and must print the same. The plain program has the net as constants and a table of the pairs
of states; it refuses a malformed line by its number. The best of five runs each.
"""

from __future__ import annotations

import os
import random
import subprocess
import sys
import tempfile

from common import PROGRAM, TOP, expect_program, few, row, run_apart, source

AGENTS = 1_000

PLAIN = source("plain/play.rs")


def timed(command: list[str], data: str) -> tuple[bytes, float, int]:
    """The text, the seconds of a processor, and the peak of memory in bytes."""
    with open(data, "rb") as given:
        return run_apart(command, given, subprocess.PIPE)[:3]


def best(command: list[str], data: str) -> tuple[bytes, float, int]:
    runs = [timed(command, data) for _ in range(few(5, 1))]
    return runs[0][0], min(run[1] for run in runs), runs[0][2]


def main() -> None:
    expect_program()
    drawn = random.Random(7)
    pairs = [drawn.sample(range(AGENTS), 2) for _ in range(100_000)]
    part = "".join(f"{a} {b}\n" for a, b in pairs)
    with open(os.path.join(TOP, "examples/majority/net.json")) as file:
        head = file.read() + f"crowd x={AGENTS // 2 + 1} y={AGENTS // 2 - 1}\n"
    with tempfile.TemporaryDirectory() as folder:
        source, plain, data = (os.path.join(folder, name) for name in ("plain.rs", "plain_program", "input"))
        with open(source, "w") as file:
            file.write(PLAIN)
        subprocess.run(["rustc", "-O", "--edition", "2021", "-A", "warnings", "-o", plain, source], check=True)
        for repeats in few((20, 160), (1,)):
            with open(data, "w") as file:
                file.write(head + part * repeats)
            ours, our_time, memory = best([PROGRAM, "play"], data)
            theirs, plain_time, plain_memory = best([plain], data)
            if ours != theirs:
                sys.exit(f"the texts differ: {ours!r} and {theirs!r}")
            print(
                (
                    f"{repeats * len(pairs):,} lines: pop {our_time:.3f} s, plain {plain_time:.3f} s, ratio"
                    f" {our_time / plain_time:.2f}; memory {memory / 1e6:.0f} MB, plain {plain_memory / 1e6:.0f} MB"
                ),
                flush=True,
            )
            row(
                "play",
                f"{repeats * len(pairs):,} meeting lines",
                our_time,
                plain_time,
                f"{memory / 1e6:.0f} MB, plain {plain_memory / 1e6:.0f}",
            )


if __name__ == "__main__":
    main()
