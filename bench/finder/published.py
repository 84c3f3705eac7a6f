"""Published families up to the sizes of the literature and beyond, with times that others published."""
from __future__ import annotations

from dataclasses import dataclass
from typing import Iterator

from . import own_protocols as own
from . import protocols as p
from .families import compiled
from .majorities import cancel_split
from .making import Case

PAPER = "Blondin, Esparza, Jaax and Meyer 2017"
OUT_OF_TIME = "out of time"


@dataclass(frozen=True)
class Quoted:
    """What a paper says of a net of this family and size, on another machine; not measured here."""

    told: str
    source: str = PAPER


QUOTED = {("tower", 201): Quoted("779 s"), ("Angluin's threshold", 148): Quoted(OUT_OF_TIME)}


def published() -> Iterator[Case]:
    """The families; those that take minutes stand at the end."""
    yield from (p.majority(False), p.epidemic())
    yield from map(cancel_split, (1, 2))
    yield from map(p.flock, (20, 40, 55, 100))
    yield from map(p.tower, (50, 100))
    yield from (p.log_flock(10), p.binary_flock(1000))
    yield from (p.threshold((1, -1), c) for c in (2, 5, 8))
    yield from (p.remainder(m, 1) for m in (10, 30))
    yield from (compiled("compiled remainder", f"x + 2*y = 1 mod {m}") for m in (50, 100))
    yield from map(p.average, (13, 41))
    yield from (own.interval(4, 7), own.interval(6, 9))
    yield from (p.tower(200), p.flock(160), p.log_flock(39), p.average(81), p.threshold((1, -1), 17))
    yield from (compiled("compiled remainder", f"x + 2*y = 1 mod {m}") for m in (160, 199))
    yield from (p.flock(320), p.tower(400), p.binary_flock(87654321))


def quoted(case: Case) -> str:
    """What was published of a net of this family and number of states, marked as quoted."""
    found = QUOTED.get((case.family, len(case.net.leaves[0].states)))
    return f"{found.told} (quoted: {found.source})" if found else ""
