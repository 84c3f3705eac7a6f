"""The benchmark's nets: at least 120 of at least 14 families."""
from __future__ import annotations

import json
from typing import Iterator

from hurleyoak.engine import program
from hurleyoak.protocol.nets import net_of
from . import own_protocols as own
from . import protocols as p
from .making import Case, product


def compiled(family: str, text: str, variables: str = "x y", flocks: bool = False) -> Case:
    """What the program compiles of a predicate."""
    answer = program.ask(["compile", *(["--flocks"] if flocks else [])], f"vars {variables}\n{text}\n")
    if answer.status != program.DONE:
        raise ValueError(f"{text}: {answer.first_line}")
    value = json.loads(answer.text)
    return Case(family, text, net_of(value["net"]), value["pred"], tuple(part["pred"] for part in value["proof"]))


def small_nets() -> Iterator[Case]:
    """The families whose nets are found within seconds."""
    yield from (p.epidemic(), own.two_rumours(), own.broadcast(), p.majority(False), p.majority(True))
    yield from map(p.flock, (*range(2, 21), 25, 30, 40))
    yield from (p.flock(c, rest=True) for c in range(2, 9))
    yield from map(p.tower, (2, 3, 4, 5, 7, 10, 15, 20, 30))
    yield from map(p.log_flock, range(1, 11))
    yield from map(p.binary_flock, (3, 5, 6, 7, 11, 13, 21, 37, 50, 77, 100))
    yield from (
        compiled("compiled threshold", text)
        for text in (
            "x < 1",
            "x - y < 1",
            "x - y < 2",
            "2*x - y < 1",
            "x - y < 3",
            "2*x - 3*y < 2",
            "x + y < 4",
            "x - y < 5",
            "x - y < 10",
        )
    )
    yield from (compiled("compiled remainder", f"x + 2*y = 1 mod {m}") for m in (2, 3, 4, 6, 10, 20, 30))
    yield from (
        compiled("compiled, several leaves", text, flocks=True)
        for text in ("x - y < 2 && x = 1 mod 3", "x < 3 || y = 0 mod 2", "!(x >= 64) || y != 1", "x >= 16 && y >= 4")
    )
    yield from (p.threshold((1, -1), c) for c in (0, 1, 2, 5))
    yield p.threshold((2, -1), 1)
    yield from (p.remainder(m, 1) for m in (2, 3, 5, 8, 12))
    yield from map(p.average, (1, 3, 5, 7, 9, 13))
    yield from map(own.counter, (1, 2, 3, 5, 10, 20))
    yield from map(own.helper_rest, (2, 3, 5, 12))
    yield own.head_start(2)
    yield from (own.interval(1, 2), own.interval(2, 3), own.interval(2, 5), own.interval(4, 7))
    yield from (
        own.mod_three(),
        own.twice(),
        own.same(True),
        own.same(False),
        own.exactly_one(),
        own.either(),
        own.alarm(2),
        own.alarm(5),
    )
    yield product("product", "epidemic and majority", p.epidemic(), p.majority(False), "&&")
    yield product("product", "flock of 3 or majority", p.flock(3), p.majority(False), "||")
    yield product("product", "flock of 3 and mod 3", p.flock(3), own.mod_three(), "&&")


def large_nets() -> Iterator[Case]:
    """Nets of up to 153 states and 6,427 moves."""
    yield p.flock(60)
    yield p.flock(100)
    yield p.tower(100)
    yield compiled("compiled threshold", "x - y < 14")
    yield compiled("compiled threshold", "x - y < 18")
    yield compiled("compiled threshold", "x - y < 23")
    yield compiled("compiled threshold", "x - y < 24")
    yield compiled("compiled remainder", "x + 2*y = 1 mod 50")
    yield compiled("compiled remainder", "x + 2*y = 1 mod 100")
    yield p.threshold((1, -1), 12)
    yield p.average(81)
    yield own.interval(6, 9)
