#!/usr/bin/python3
"""Takes the processor time of `run` of the built program beside a plain Rust program that does the same work.

Run from the top of the repository: bench/runs.py [--short] Both run 1,000,000 turns of one worker, on majority with
1,000 and with 65,536 agents and on a threshold leaf of 255 states, and must print the same journal. The built program
reads a bundle and checks its proof first, which the plain one does not. The plain one keeps each agent's digits and
puts lines together on a page, as the built one does, in a text whose room is reserved. The least of seven runs each,
in turn.
"""

from __future__ import annotations

import json
import os
import subprocess
import sys
import tempfile
from typing import Any

import generator
from common import PROGRAM, TOP, expect_program, few, row, run_apart, source
import tree

RUNS = few(7, 1)
TURNS = few(1_000_000, 10_000)

PLAIN = source("plain/runs.rs")


def majority() -> Any:
    with open(os.path.join(TOP, "examples/majority/bundle.json")) as f:
        return json.load(f)


def threshold() -> Any:
    """The bundle of the widest leaf that is built."""
    return json.loads(list(tree.bundles())[-1][1])


def timed(command: list[str], standard_input: str) -> tuple[bytes, float, int]:
    with open(standard_input, "rb") as given:
        return run_apart(command, given, subprocess.PIPE)[:3]


def measure(name: str, bundle: Any, counts: list[int], plain: str, folder: str) -> None:
    leaf = bundle["net"]["leaves"][0]
    crowd = "crowd " + " ".join(f"{v}={n}" for v, n in zip(bundle["net"]["vars"], counts))
    head = json.dumps(bundle, separators=(",", ":")) + "\n" + crowd + "\n"
    line_input = os.path.join(folder, "input")
    with open(line_input, "w") as f:
        f.write(head)
    plain_input = os.path.join(folder, "plain")
    with open(plain_input, "w") as f:
        f.write(" ".join(leaf["states"]) + "\n")
        f.write(" ".join(",".join(map(str, m)) for m in leaf["moves"]) + "\n")
        f.write(" ".join(f"{s},{n}" for s, n in zip(leaf["input"], counts)) + "\n")
        f.write(f"{TURNS}\n")
        f.write(" ".join("true" if b else "false" for b in leaf["output"]) + "\n")
    our_time = plain_time = float("inf")
    for _ in range(RUNS):
        ours, seconds, memory = timed([PROGRAM, "run", "--turns", str(TURNS)], line_input)
        our_time = min(our_time, seconds)
        theirs, seconds, plain_memory = timed([plain, plain_input], os.devnull)
        plain_time = min(plain_time, seconds)
    journal = ours[len(head.encode()) :]
    if journal != theirs:
        sys.exit(f"{name}: the journals differ")
    meetings = sum(1 for line in journal.split(b"\n") if line[:1].isdigit())
    print(
        f"{name}: {meetings} meetings, pop {our_time:.3f} s, plain {plain_time:.3f} s, ratio"
        f" {our_time / plain_time:.2f}; memory per meeting: pop {memory / max(meetings, 1):.0f} bytes, plain"
        f" {plain_memory / max(meetings, 1):.0f} bytes"
    )
    row(
        "run",
        f"{name}, {meetings:,} meetings",
        our_time,
        plain_time,
        f"{memory / max(meetings, 1):.0f} bytes a meeting",
    )


def main() -> None:
    expect_program()
    with tempfile.TemporaryDirectory() as folder:
        source = os.path.join(folder, "plain.rs")
        plain = os.path.join(folder, "plain_program")
        with open(source, "w") as f:
            f.write(PLAIN + generator.WORDS + generator.NUMERALS)
        subprocess.run(["rustc", "-O", "--edition", "2021", "-A", "warnings", "-o", plain, source], check=True)
        measure("majority, 1,000 agents", majority(), [501, 499], plain, folder)
        measure("majority, 65,536 agents", majority(), [32_769, 32_767], plain, folder)
        measure(
            "threshold leaf of 255 states, its proof checked first, 1,000 agents",
            threshold(),
            [510, 490],
            plain,
            folder,
        )


main()
