#!/usr/bin/python3
"""Times the look for an enabled pair in terminal crowds whose agents all have different tuples of eight leaves.

bench/pairs.py

No command makes such a crowd. So a program of its own, which stands below, is proved and built in a folder over copies
of the crates it calls. It reads a net and a number of agents, gives agent n the states that the digits of n to the
base four name, and looks for a pair that changes. Beside it a plain Rust program does the same work.
"""
from __future__ import annotations

import json
import os
import subprocess
import tempfile

from common import source
from over_crates import Small, built_over
from tree import measured

LEAVES = 8
SIZES = [1_024, 8_192, 65_536]

MAIN = source("kit/pairs.rt.in")

INVARIANT = source("kit/pairs_words.antt.in")

PLAIN = source("plain/pairs.rs")


def net_line() -> str:
    """Eight leaves of eight states, of which the agents have the first four; each of the others reacts with every
    state."""
    states = ["q" + str(q) for q in range(8)]
    moves = [[p, q, q, q] for p in range(8) for q in range(4, 8) if p != q]
    leaf = {"states": states, "moves": moves, "input": [0], "output": [q % 2 == 0 for q in range(8)]}
    combine = [0] + [item for leaf in range(1, LEAVES) for item in (leaf, "and")]
    net = {"format": 1, "vars": ["x"], "leaves": [leaf] * LEAVES, "combine": combine}
    return json.dumps(net, separators=(",", ":"))


def built(folder: str) -> str:
    files = {"src/main.rt": MAIN, "proofs/words_of/Invariants.antt": INVARIANT}
    uses = ["pop_io", "base_lines", "pop_net", "net_json", "pop_crowd", "terminal_test", "serde_json"]
    return built_over(folder, {"pairs": Small(uses, files)})["pairs"]


def built_plain(folder: str) -> str:
    source = os.path.join(folder, "plain.rs")
    with open(source, "w") as file:
        file.write(PLAIN)
    program = os.path.join(folder, "plain")
    subprocess.run(["rustc", "-O", "-o", program, source], check=True)
    return program


def main() -> None:
    with tempfile.TemporaryDirectory() as folder:
        programs = [("built", built(os.path.join(folder, "crate"))), ("plain", built_plain(folder))]
        path = os.path.join(folder, "input")
        for agents in SIZES:
            with open(path, "w") as file:
                file.write(f"{net_line()}\n{agents}\n")
            for what, program in programs:
                seconds, worked, memory, status = measured(program, path)
                print(
                    (
                        f"{agents} agents, {what}: {seconds:.4f} s, {worked:.4f} s of a processor,"
                        f" {memory / 1e6:.0f} MB, exit status {status}"
                    ),
                    flush=True,
                )


if __name__ == "__main__":
    main()
