"""Wrong nets whose least wrong crowd is known, and is late: a right net for a threshold, with the next one as its
predicate.

With one agent of x fewer than the predicate asks for, the net says that there are enough, and with any fewer it is
right.
"""
from __future__ import annotations

from dataclasses import replace
from typing import Callable, Iterator

from . import protocols as p
from .making import Case

FLOCKS = (3, 4, 5, 6, 7, 8, 9, 10, 12, 14, 16, 20)
TOWERS = (3, 4, 5, 6, 8, 10, 12, 16, 20, 24, 32)
POWERS = range(2, 13)
BINARY = (5, 6, 7, 11, 13, 21, 37, 50, 77, 100, 150, 200, 300, 500, 700, 1000, 1500, 2000, 3000, 4095)


def _late(made: Case, least: int) -> tuple[int, Case]:
    return least, replace(made, name=f"{made.name}, asked for {least + 1}", predicate=f"x >= {least + 1}")


def late_nets() -> Iterator[tuple[int, Case]]:
    """Each with the number of agents of its least wrong crowd."""
    families: list[tuple[Callable[[int], Case], tuple[int, ...]]] = [
        (p.flock, FLOCKS),
        (p.tower, TOWERS),
        (p.binary_flock, BINARY),
    ]
    yield from (_late(family(c), c) for family, sizes in families for c in sizes)
    yield from (_late(p.log_flock(k), 1 << k) for k in POWERS)
