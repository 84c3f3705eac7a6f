#!/usr/bin/python3
"""How large the compiled nets of 40 predicates are, into docs/develop/performance.md.

Run from the top of the repository: bench/sizes.py [--short]; with --short it prints a part of the table and writes
nothing. It ends with an error where `compile --succinct` is larger than `compile`.
"""

from __future__ import annotations

import json
import sys

from common import IS_SHORT, expect_program, few, write_between
from made import NAMES, PLAIN, SUCCINCT, WORKBENCH, net_by, rows_of, sizes_of, told_of

from hurleyoak.engine.compiling import Way, make_bundle
from hurleyoak.proof.bundles import Bundle, bundle_of

PREDICATES = few(
    [
        *("x >= 1", "x >= 7", "x >= 64", "x >= 1000", "5*x >= 1000", "7*x + 11*y >= 1000", "173*x + 5*y >= 100000000"),
        *(
            "x < 1",
            "2*x + 3*y < 40",
            "x = 1",
            "x = 17",
            "x - y = 0",
            "x - y != 0",
            "x - y < 1",
            "x - y < 2",
            "x - y < 10",
        ),
        *("x - y < 79", "x - y < 1000", "y - x < 0", "2*x - y < 1", "3*x - 2*y >= 500", "7*x - 100*y < 13"),
        *("682*x - 865*y < 100", "x - y < 1048576", "2147483647*x - 2147483646*y < 1099511627775"),
        *("x = 0 mod 2", "x = 1 mod 3", "x + 2*y = 1 mod 5", "x = 1 mod 12", "x + 2*y = 7 mod 20"),
        *("x + 2*y = 7 mod 60", "x = 1 mod 199", "13*x + 77*y = 7 mod 111", "x - y < 1 && x = 0 mod 2"),
        *("x >= 5 || y >= 7", "x >= 1000 && y >= 77", "x - y < 3 || x + y = 1 mod 3", "x + y >= 100 && x - y < 7"),
        *("x - y < 10 && x = 1 mod 3", "!(x - y < 20) && x + 2*y = 7 mod 60"),
    ],
    ["x >= 7", "x = 1 mod 199"],
)
HEAD = ["Predicate", "Plain", "Succinct", "Workbench", "`compile`", "`compile --succinct`"]


def told(bundle: Bundle | None) -> str:
    """States, moves, helpers and the bound."""
    return ", ".join(map(str, [*sizes_of(bundle), sum(part.bound for part in bundle.proof)])) if bundle else ""


def row(predicate: str) -> list[str]:
    """The nets of the three makers, and whose is taken both ways."""
    nets = {maker: net_by(maker, predicate) for maker in (PLAIN, SUCCINCT, WORKBENCH)}
    lines = {maker: net.line() for maker, net in nets.items() if net}
    names, states = [], []
    for way in (Way.SMALLEST, Way.SUCCINCT):
        line = json.loads(make_bundle(NAMES, predicate, way).answer.first_line)
        bundle = bundle_of(line)
        names.append(next(maker for maker, made in lines.items() if made == bundle.line()))
        states.append(sizes_of(bundle)[0])
    if states[1] > states[0]:
        sys.exit(f"{predicate}: --succinct has {states[1]} states, and compile {states[0]}")
    return [told_of(predicate), *map(told, nets.values()), *names]


def main() -> None:
    expect_program()
    lines = rows_of(HEAD, [row(predicate) for predicate in PREDICATES])
    if IS_SHORT:
        print("\n".join(lines))
    else:
        write_between("develop/performance.md", "sizes", lines)


main()
