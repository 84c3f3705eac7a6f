#!/usr/bin/python3
"""Runs the commands of documents and compares what they print with what the documents show.

    POP_MAIN=PROGRAM tests/pages.py [--write] DOCUMENT.md..

A line `$ COMMAND` in a block of code is a command, and what follows up to the next one is its output, errors among it.
Commands run at the repository's top, in one folder for files that they make. `<!-- file: NAME -->` before a block
writes it to a file there. Seconds are not compared. With --write a document gets the output that was found."""
from __future__ import annotations

import os
import re
import subprocess
import sys
import tempfile
from dataclasses import dataclass
from pathlib import Path
from typing import Iterator

TOP = Path(__file__).resolve().parent.parent
FENCE, PROMPT = "```", "$ "
FILE = re.compile(r"<!-- file: (\S+) -->")
SECONDS = re.compile(r"\d+\.\d s")


@dataclass
class Step:
    """A command with what is told of it: the numbers of the command's line and of the line behind its output."""

    command: str
    told: str
    line: int
    end: int


def blocks(lines: list[str]) -> Iterator[tuple[int, int, str]]:
    """The first and the last line of each block of code, and the file that it is written to."""
    start, name = -1, ""
    for i, line in enumerate(lines):
        if found := FILE.match(line):
            name = found[1]
        elif line.startswith(FENCE) and start < 0:
            start = i
        elif line.startswith(FENCE):
            yield start, i, name
            start, name = -1, ""


def steps(lines: list[str], start: int, end: int) -> Iterator[Step]:
    """The commands of a block."""
    at = [i for i in range(start + 1, end) if lines[i].startswith(PROMPT)]
    for i, after in zip(at, [*at[1:], end]):
        yield Step(lines[i][len(PROMPT) :], "\n".join(lines[i + 1 : after]), i, after)


def plain(text: str) -> str:
    """A text without what differs from run to run."""
    return SECONDS.sub("T s", text).rstrip()


def run(command: str, folder: Path) -> str:
    """What a command prints."""
    env = {**os.environ, "PATH": f"{TOP}/bin:{os.environ['PATH']}"}
    made = subprocess.run(
        ["bash", "-c", f"( {command}\n) 2>&1"], cwd=folder, env=env, capture_output=True, text=True, check=False
    )
    return made.stdout.rstrip("\n")


def differing(path: Path, folder: Path, writes: bool) -> tuple[int, int]:
    """How many commands a document has, and how many print something else."""
    lines = path.read_text(encoding="utf-8").split("\n")
    count = bad = 0
    changes: list[tuple[Step, str]] = []
    for start, end, name in blocks(lines):
        if name:
            (folder / name).write_text("\n".join(lines[start + 1 : end]) + "\n", encoding="utf-8")
            continue
        for step in steps(lines, start, end):
            found = run(step.command, folder)
            count += 1
            if plain(found) != plain(step.told):
                bad += 1
                changes.append((step, found))
                print(
                    f"DIFFERS {path.name}:{step.line + 1}: {step.command}\n--- told\n{step.told}\n--- found\n{found}"
                )
    if writes:
        for step, found in reversed(changes):
            lines[step.line + 1 : step.end] = found.split("\n") if found else []
        path.write_text("\n".join(lines), encoding="utf-8")
    return count, bad


def main(words: list[str]) -> int:
    """Says how many commands differ; the status is 1 where any does."""
    if "POP_MAIN" not in os.environ:
        print("POP_MAIN is not set: the commands would build the program")
        return 2
    writes = "--write" in words
    count = bad = 0
    with tempfile.TemporaryDirectory() as room:
        folder = Path(room)
        (folder / "examples").symlink_to(TOP / "examples")
        (folder / "bin").symlink_to(TOP / "bin")
        for word in words:
            if word != "--write":
                more, wrong = differing(Path(word), folder, writes)
                count, bad = count + more, bad + wrong
    print(f"{count} commands, {bad} differ")
    return 1 if bad else 0


if __name__ == "__main__":
    sys.exit(main(sys.argv[1:]))
