#!/usr/bin/python3
"""Takes the processor time of `check` of the built program beside a plain Rust program that does the same work.

Run from the top of the repository: bench/check.py [--short] The plain program is bench/plain/check.rs. Both must say
the same, byte for byte: first of each bundle in examples/, then of those that are timed: the widest leaf of
bench/tree.py, and compiled bundles with 16 variables.
"""

from __future__ import annotations

import glob
import os
import subprocess
import sys
import tempfile
from collections.abc import Iterator

from common import PROGRAM, TOP, expect_program, few, row, run_apart
import tree

RUNS = few(5, 1)


def examples() -> Iterator[tuple[str, str]]:
    """Each bundle, with the line that is expected of it."""
    for expected in sorted(glob.glob(os.path.join(TOP, "examples/*/*.expected"))):
        folder, name = os.path.split(expected)
        bundle = (
            os.path.join(folder, "bundle.json") if name == "check.expected" else expected[: -len("expected")] + "json"
        )
        if os.path.exists(bundle) and name != "run.expected":
            yield bundle, expected


def atom(width: int) -> str:
    """A sum of all variables whose atom has this width."""
    return " + ".join(f"{width if i == 0 else 1 + i % 7}*x{i}" for i in range(16)) + " < 1"


def bundles(folder: str) -> Iterator[tuple[str, str]]:
    """What is timed, and the file of its bundle."""
    names = ["the widest leaf of 42 values"]
    paths = [os.path.join(folder, "tree")]
    with open(paths[0], "w") as f:
        f.write(list(tree.bundles())[-1][1] + "\n")
    variables = " ".join(f"x{i}" for i in range(16))
    for count, width in few([(1, 80), (8, 42), (4, 80)], [(1, 20)]):
        names.append(f"{count} compiled atoms of width {width}")
        paths.append(os.path.join(folder, f"compiled{len(paths)}"))
        lines = f"vars {variables}\n{' && '.join([atom(width)] * count)}\n"
        with open(paths[-1], "wb") as f:
            subprocess.run([PROGRAM, "compile"], input=lines.encode(), stdout=f, check=True)
    return zip(names, paths)


def timed(command: list[str], standard_input: str, said: str) -> tuple[float, int]:
    with open(standard_input, "rb") as source, open(said, "wb") as sink:
        return run_apart(command, source, sink)[1:3]


def best(command: list[str], standard_input: str, said: str) -> tuple[float, int]:
    """The least time of some runs, and the memory of the first."""
    runs = [timed(command, standard_input, said) for _ in range(RUNS)]
    return min(run[0] for run in runs), runs[0][1]


def contents(path: str) -> bytes:
    with open(path, "rb") as f:
        return f.read()


def main() -> None:
    expect_program()
    with tempfile.TemporaryDirectory() as folder:
        plain, ours, theirs = (os.path.join(folder, name) for name in ("plain", "ours", "theirs"))
        source = os.path.join(TOP, "bench/plain/check.rs")
        subprocess.run(["rustc", "-O", "--edition", "2021", "-o", plain, source], check=True)
        count = 0
        for bundle, expected in examples():
            timed([plain], bundle, theirs)
            if contents(theirs) != contents(expected):
                sys.exit(f"{bundle}: plain {contents(theirs)!r}, expected {contents(expected)!r}")
            count += 1
        print(f"{count} examples: the same line")
        for name, bundle in bundles(folder):
            (our_time, memory), (plain_time, plain_memory) = best([PROGRAM, "check"], bundle, ours), best(
                [plain], bundle, theirs
            )
            if contents(ours) != contents(theirs):
                sys.exit(f"{name}: pop {contents(ours)!r}, plain {contents(theirs)!r}")
            size = os.path.getsize(bundle)
            print(
                f"{name}, {size} bytes, {contents(ours).decode().strip()}: pop {our_time:.3f} s, plain"
                f" {plain_time:.3f} s, ratio {our_time / plain_time:.2f}; memory: pop {memory / size:.1f} times the"
                f" bytes, plain {plain_memory / size:.1f}"
            )
            row("check", f"{name}, {size / 1e6:.1f} MB", our_time, plain_time, f"{memory / size:.0f} times the input")


if __name__ == "__main__":
    main()
