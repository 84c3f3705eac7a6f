"""What benches of nets share: random meetings up to the last change, by the simulator in C (bench/plain/silence.c)."""

from __future__ import annotations

import os
import resource
import statistics
import subprocess
import sys
import tempfile
from functools import cache

from common import TOP

sys.path.insert(0, TOP)

from hurleyoak.proof.bundles import start_crowd  # noqa: E402
from hurleyoak.protocol.nets import Leaf, pair  # noqa: E402

CHANGES = 10**9
SECONDS = 240  # of the processor, for all runs of a cell
NO_END = "-"
_PLACE = tempfile.TemporaryDirectory()


@cache
def simulator() -> str:
    """The simulator, built once."""
    made = os.path.join(_PLACE.name, "silence")
    subprocess.run(["gcc", "-O2", "-o", made, os.path.join(TOP, "bench/plain/silence.c"), "-lm"], check=True)
    return made


def meetings_of(leaf: Leaf, counts: tuple[int, ...], runs: int) -> list[int] | None:
    """The meetings of so many runs up to the last change; None where one has no end in that time."""
    moves = [move for move in leaf.moves if pair(*move[:2]) != pair(*move[2:])]
    lines = [[len(leaf.states), len(moves)], *moves, start_crowd(leaf, counts), [runs, 1, CHANGES]]
    text = "\n".join(" ".join(map(str, line)) for line in lines) + "\n"
    limit = lambda: resource.setrlimit(resource.RLIMIT_CPU, (SECONDS, SECONDS))
    done = subprocess.run([simulator()], input=text, capture_output=True, text=True, preexec_fn=limit)
    if done.returncode:
        return None
    found = [line.split() for line in done.stdout.splitlines()]
    return [int(meetings) for meetings, _ in found] if all(ended == "1" for _, ended in found) else None


def agents_of(leaf: Leaf, counts: tuple[int, ...]) -> int:
    """The agents of a crowd, helpers among them."""
    return sum(counts) + len(leaf.helpers)


def squares(leaf: Leaf, counts: tuple[int, ...], runs: int) -> float | None:
    """The median of the meetings to the last change by the square of the agents."""
    found = meetings_of(leaf, counts, runs)
    return statistics.median(found) / agents_of(leaf, counts) ** 2 if found else None


def told(share: float | None) -> str:
    """A cell of a table."""
    return NO_END if share is None else f"{share:.2f}"
