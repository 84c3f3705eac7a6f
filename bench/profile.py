#!/usr/bin/python3
"""Which functions take the time of each command's largest case: samples of Linux's `perf`.

Run from the top of the repository: bench/profile.py Each function with a twentieth of a command's samples or more has
a row; the shares are percent of the command's own time.
"""

from __future__ import annotations

import os
import re
import subprocess
import tempfile
from collections.abc import Iterator

from common import PROGRAM, TOP

LEAST_SHARE = 5.0
FOUR_WIDE_ATOMS = b"vars x y\nx - y < 79 && x - y < 78 && x - y < 77 && x - y < 76\n"


def made(words: list[str], given: bytes) -> bytes:
    return subprocess.run([PROGRAM, *words], input=given, stdout=subprocess.PIPE).stdout


def read(name: str) -> bytes:
    with open(os.path.join(TOP, "examples/majority", name), "rb") as file:
        return file.read().rstrip() + b"\n"


def cases() -> Iterator[tuple[str, list[str], bytes]]:
    """The name of each case, its words and its input."""
    bundle, net = read("bundle.json"), read("net.json")
    run = bundle + b"crowd x=501 y=500\n"
    wide = made(["compile"], FOUR_WIDE_ATOMS)
    apart = made(["compile"], b"vars x y\nx - y < 20\n")
    yield "play: 2,000,000 meeting lines", ["play"], net + b"crowd x=501 y=499\n" + b"17 420\n" * 2_000_000
    yield "compile: four atoms of width 80", ["compile"], FOUR_WIDE_ATOMS
    yield "check: four atoms of width 80", ["check"], wide
    yield "run: 1,000 agents, 1,000,000 turns", ["run", "--turns", "1000000"], run
    yield "run: 65,536 agents, 1,000,000 turns", ["run", "--turns", "1000000"], bundle + b"crowd x=32769 y=32767\n"
    yield "replay: 1,000,000 meetings", ["replay"], made(["run", "--turns", "1000000"], run)
    yield "settle: 65,536 agents, `x - y < 20`", ["settle"], apart + b"crowd x=32769 y=32767\n"
    yield "demo 7", ["demo", "7"], b""


def shares(folder: str, words: list[str], given: bytes) -> Iterator[tuple[float, str]]:
    """The functions and their shares, the largest first."""
    data, path = os.path.join(folder, "data"), os.path.join(folder, "input")
    with open(path, "wb") as to:
        to.write(given)
    with open(path) as lines:
        record = ["perf", "record", "-q", "-e", "cpu-clock", "-F", "10000", "-o", data, PROGRAM, *words]
        subprocess.run(record, stdin=lines, stdout=subprocess.DEVNULL, stderr=subprocess.DEVNULL)
    report = ["perf", "report", "-i", data, "--stdio", "--no-children", "-F", "overhead,symbol"]
    for line in subprocess.run(report, capture_output=True, text=True).stdout.splitlines():
        share, found, name = line.strip().partition("%")
        if found and not line.startswith("#") and float(share) >= LEAST_SHARE:
            yield float(share), re.sub(r"^\[.\]\s*", "", name.strip())


def main() -> None:
    print("| Case | Function | Percent |\n|---|---|---|")
    with tempfile.TemporaryDirectory() as folder:
        for name, words, given in cases():
            for share, function in shares(folder, words, given):
                print(f"| {name} | `{function}` | {share:.0f} |", flush=True)
                name = ""


if __name__ == "__main__":
    main()
