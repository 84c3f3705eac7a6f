#!/usr/bin/python3
"""Takes the processor time of `settle` of the built program beside a plain Rust program that does the same work.

Run from the top of the repository: bench/settle.py [--short] Majority with 65,536 agents, and compiled thresholds and
remainders with as many as their bound allows, up to 65,536. The plain program, which stands below, has the net and the
layers as constants; its text must be the built program's. The built program reads a bundle and checks its proof first,
which the plain one does not: the time of `check` stands beside.
"""

from __future__ import annotations

import json
import os
import resource
import subprocess
import tempfile
from collections.abc import Callable, Iterator
from typing import Any

from common import PROGRAM, TOP, expect_program, few, row, source

TAKES = 8_000_000
AGENTS = few(65_536, 1_000)

PLAIN = source("plain/settle.rs")


def measured(command: list[str], data: bytes) -> tuple[bytes, float]:
    """What a command prints, and its processor time in seconds."""
    before = resource.getrusage(resource.RUSAGE_CHILDREN)
    text = subprocess.run(command, input=data, capture_output=True, check=True).stdout
    after = resource.getrusage(resource.RUSAGE_CHILDREN)
    return text, after.ru_utime + after.ru_stime - before.ru_utime - before.ru_stime


def best(command: list[str], data: bytes) -> tuple[bytes, float]:
    runs = [measured(command, data) for _ in range(few(3, 1))]
    return runs[0][0], min(seconds for _, seconds in runs)


def plain(folder: str, bundle: Any, counts: list[int]) -> str:
    """The plain program for a bundle of one leaf and these counts."""
    leaf, proof = bundle["net"]["leaves"][0], bundle["proof"][0]
    layers = [layer["moves"] for layer in proof["layers"]]
    lists: list[tuple[str, str, list[Any], Callable[[Any], str]]] = [
        ("NAMES", "&str", leaf["states"], json.dumps),
        ("OUTPUTS", "bool", leaf["output"], json.dumps),
        ("MOVES", "(usize, usize, usize, usize)", leaf["moves"], lambda move: f"({','.join(map(str, move))})"),
        ("STARTS", "(usize, u32)", list(zip(leaf["input"], counts)), str),
        ("LAYERS", "&[usize]", layers, lambda moves: f"&{moves}"),
    ]
    source = os.path.join(folder, "plain.rs")
    with open(source, "w") as file:
        for name, kind, items, shown in lists:
            file.write(f"static {name}: [{kind}; {len(items)}] = [{', '.join(map(shown, items))}];\n")
        file.write(PLAIN)
    program = os.path.join(folder, "plain")
    subprocess.run(["rustc", "-O", "-A", "warnings", "-o", program, source], check=True)
    return program


def cases() -> Iterator[tuple[str, Any, list[int]]]:
    with open(os.path.join(TOP, "examples/majority/bundle.json")) as file:
        yield "majority", json.load(file), [AGENTS // 2 + 1, AGENTS // 2 - 1]
    for pred in few(["x - y < 3", "x + 2*y = 1 mod 20", "x - y < 20"], ["x - y < 3"]):
        line = subprocess.run(
            [PROGRAM, "compile"], input=f"vars x y\n{pred}\n".encode(), capture_output=True, check=True
        ).stdout
        bound = int(subprocess.run([PROGRAM, "check"], input=line, capture_output=True, check=True).stdout.split()[1])
        agents = min(AGENTS, TAKES // bound)
        yield f"`{pred}`", json.loads(line), [agents // 2, agents - agents // 2]


def main() -> None:
    expect_program()
    for name, bundle, counts in cases():
        line = json.dumps(bundle, separators=(",", ":")) + "\n"
        crowd = f"crowd x={counts[0]} y={counts[1]}\n"
        with tempfile.TemporaryDirectory() as folder:
            wanted, plain_seconds = best([plain(folder, bundle, counts)], b"")
        text, seconds = best([PROGRAM, "settle"], (line + crowd).encode())
        _, check_seconds = best([PROGRAM, "check"], line.encode())
        assert text == wanted, name
        takes = text.count(b"take ")
        print(
            (
                f"{name}, {sum(counts)} agents, {takes} takes: {seconds:.2f} s, of which `check`"
                f" {check_seconds:.2f} s; plain {plain_seconds:.2f} s"
            ),
            flush=True,
        )
        row("settle", f"{name}, {sum(counts):,} agents, {takes:,} takes", seconds, plain_seconds)


main()
