#!/usr/bin/python3
"""Finds the least stack with which a command of the built program still ends.

Run from the top of the repository: bench/stack.py [--short]
The sizes are those of `ulimit -s`, in KB, in steps of 8; the usual limit is 8,192.
"""

from __future__ import annotations

import os
import subprocess
from collections.abc import Iterator

from common import PROGRAM, TOP, expect_program

STEP = 8


def read(name: str) -> bytes:
    with open(os.path.join(TOP, "examples/majority", name), "rb") as file:
        return file.read()


def cases() -> Iterator[tuple[str, list[str], bytes]]:
    """What is done, its words, its input."""
    bundle, crowd = read("bundle.json"), read("crowd.txt")
    yield "`check` of majority", ["check"], bundle
    yield "`compile` of two atoms", ["compile"], b"vars x y\nx - y < 3 || x + y = 1 mod 2\n"
    yield "`eval` of 40 nested negations", ["eval"], b"vars x\n" + b"!(" * 40 + b"x < 1" + b")" * 40 + b"\ncrowd x=1\n"
    yield "`demo 21`", ["demo", "21"], b""
    yield "`run` by two workers (the first thread)", ["run", "--workers", "2"], bundle + crowd
    yield "`check` of JSON nested 127 deep", ["check"], b"[" * 127 + b"]" * 127 + b"\n"


def status(kilobytes: int, words: list[str], data: bytes) -> int:
    script = f'ulimit -s {kilobytes}; exec "$0" "$@"'
    return subprocess.run(["sh", "-c", script, PROGRAM, *words], input=data, capture_output=True).returncode


def least_stack(words: list[str], data: bytes) -> int:
    """By halving; a program that lacks stack is ended by a signal."""
    wanted = status(8192, words, data)
    low, high = 0, 8192 // STEP
    while high - low > 1:
        middle = (low + high) // 2
        if status(middle * STEP, words, data) == wanted:
            high = middle
        else:
            low = middle
    return high * STEP


def main() -> None:
    expect_program()
    for name, words, data in cases():
        print(f"stack\t{name}\t{least_stack(words, data)}", flush=True)


main()
