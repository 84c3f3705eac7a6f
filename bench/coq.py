#!/usr/bin/python3
"""How long Coq takes for exported files, and the checker that it extracts for the same bundles.

    /usr/bin/python3 bench/coq.py [--short] [--write]

With --write the table goes into docs/trust/coq.md. Seconds are of a processor, memory is the peak of the process.
"""
from __future__ import annotations

import json
import os
import statistics
import subprocess
import sys
import tempfile
from pathlib import Path

from common import IS_SHORT, PROGRAM, TOP, few, run_apart

sys.path.insert(0, TOP)

from tests.coq import VALID, paths  # noqa: E402

PAGE = Path(TOP, "docs/trust/coq.md")
BEGIN, END = "<!-- coq: written by `bench/coq.py --write` -->\n", "<!-- end of coq -->\n"
POP, BUILD = os.path.join(TOP, "bin/pop"), os.path.join(TOP, "proofs/coq/build")
COMPILED: list[tuple[str, list[str]]] = [
    ("x - y < 1000", []),
    ("1000003*x - 77777*y + 5*z < 123456789", []),
    ("x + 2*y = 1 mod 20", ["--plain"]),
    ("x + 2*y = 1 mod 60", ["--plain"]),
    ("2*x - y < 20", ["--plain"]),
    ("x + 2*y = 7 mod 200", ["--plain"]),
]
ENVIRONMENT = {**os.environ, "POP_MAIN": PROGRAM}


def made_by(words: list[str]) -> bytes:
    """What a command of bin/pop prints."""
    quiet = subprocess.DEVNULL
    return subprocess.run([POP, *words], env=ENVIRONMENT, stdout=subprocess.PIPE, stderr=quiet, check=True).stdout


def by_coq(library: str, bundle: bytes, room: str) -> tuple[float, int]:
    """The seconds and the memory of `coqc` over the file of a bundle, which it has to accept."""
    Path(room, "bundle.json").write_bytes(bundle)
    Path(room, "One.v").write_bytes(made_by(["export", "--coq", os.path.join(room, "bundle.json")]))
    words = ["/usr/bin/coqc", "-q", "-Q", library, "Hurleyoak", os.path.join(room, "One.v")]
    text, seconds, memory, _ = run_apart(words, subprocess.DEVNULL, subprocess.PIPE)
    if b"Closed under the global context" not in text:
        sys.exit("Coq doesn't accept the file")
    return seconds, memory


def measured(library: str, checker: str, bundle: bytes) -> tuple[float, int, float]:
    """The seconds and the memory of `coqc`, and the seconds of the extracted checker."""
    with tempfile.TemporaryDirectory() as room:
        seconds, memory = by_coq(library, bundle, room)
        _, others, _, _ = run_apart([checker, os.path.join(room, "bundle.json")], subprocess.DEVNULL, subprocess.PIPE)
    return seconds, memory, others


def main() -> int:
    """Prints the table, or writes it."""
    library = subprocess.run([BUILD], stdout=subprocess.PIPE, text=True, check=True).stdout.strip()
    checker = subprocess.run([BUILD, "--checker"], stdout=subprocess.PIPE, text=True, check=True).stdout.strip()
    lines = ["| Bundle | Bytes | Moves | Coq | Memory | Extracted |", "|---|---:|---:|---:|---:|---:|"]
    every = [measured(library, checker, path.read_bytes()) for path in paths(VALID)[: few(None, 3)]]
    seconds, memories, others = zip(*every)
    lines.append(
        f"| the {len(every)} valid ones of examples/ | | | {min(seconds):.1f} to {max(seconds):.1f} s, median"
        f" {statistics.median(seconds):.1f} s | {max(memories) / 1e9:.2f} GB |"
        f" {max(others):.1f} s |"
    )
    for predicate, options in COMPILED[: few(len(COMPILED), 2)]:
        bundle = made_by(["compile", predicate, *options])
        moves = sum(len(leaf["moves"]) for leaf in json.loads(bundle)["net"]["leaves"])
        took, memory, other = measured(library, checker, bundle)
        name = f"`{' '.join(['compile', repr(predicate), *options])}`"
        figures = f"{took:.1f} s | {memory / 1e9:.2f} GB | {other:.1f} s"
        lines.append(f"| {name} | {len(bundle):,} | {moves:,} | {figures} |")
    text = "\n".join(lines)
    print(text)
    if "--write" in sys.argv and not IS_SHORT:
        before, _, rest = PAGE.read_text().partition(BEGIN)
        PAGE.write_text(f"{before}{BEGIN}\n{text}\n\n{END}{rest.partition(END)[2]}")
    return 0


if __name__ == "__main__":
    sys.exit(main())
