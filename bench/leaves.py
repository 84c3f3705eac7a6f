#!/usr/bin/python3
"""Writes the table of succinct leaves beside the program's own into docs/develop/performance.md.

Run from the top of the repository: bench/leaves.py [--short]; with --short it prints a part of the table and writes
nothing. Seconds are of a processor. Meetings are those to the end, the median of some seeds, by the workbench's
simulation.
"""

from __future__ import annotations

import json
import os
import statistics
import sys
import time
from collections.abc import Iterator

from common import IS_SHORT, PROGRAM, TOP, expect_program, few, measured

sys.path.insert(0, TOP)

from hurleyoak.compiler.whole import compiled  # noqa: E402
from hurleyoak.protocol.predicatereader import read_predicate  # noqa: E402
from hurleyoak.protocol.nets import Net, net_of  # noqa: E402
from hurleyoak.simulation.carrying import Limits, carry_out  # noqa: E402
from hurleyoak.simulation.simulation import Simulation  # noqa: E402

PAGE = os.path.join(TOP, "docs/develop/performance.md")
BEGIN, END = "<!-- leaves: written by `bench/leaves.py` -->\n", "<!-- end of leaves -->\n"
NAMES = ["x", "y"]
ATOMS = few(
    [
        "x - y < 1",
        "x - y < 10",
        "x - y < 79",
        "x - y < 1000",
        "3*x - 2*y >= 500",
        "x - y < 1048576",
        "x - y < 1099511627776",
        "2147483648*x - 2147483647*y < 1099511627776",
        "x >= 7",
        "x >= 1000",
        "x + 2*y = 7 mod 60",
    ],
    ["x - y < 10", "x >= 7"],
)
CROWDS = few([(64, 32), (64, 128), (256, 128), (256, 512)], [(16, 8)])
BOUNDS = few([10, 40, 1000, 1 << 31], [10])
OWN_BOUND = 79  # above it the program builds no leaf of its own
SEEDS = few(5, 2)


def checked(line: str) -> tuple[str, float]:
    """The bound that the program certifies, and its seconds."""
    text, seconds, _, _ = measured([PROGRAM, "check"], line.encode() + b"\n")
    words = text.decode().split()
    if words[:1] != ["certified"]:
        sys.exit(f"not certified: {' '.join(words)}")
    return words[1], seconds


def size_of(line: str) -> tuple[int, int, int]:
    """States, moves and helpers of the first leaf."""
    leaf = json.loads(line)["net"]["leaves"][0]
    return len(leaf["states"]), len(leaf["moves"]), len(leaf.get("helpers", []))


def cells_of(line: str, seconds: float) -> list[str]:
    """The cells of a bundle that took so long to make."""
    states, moves, helpers = size_of(line)
    bound, check_seconds = checked(line)
    size = f"{len(line):,}" if len(line) < 10_000 else f"{len(line) / 1000:,.0f} k"
    helped = f" ({helpers})" if helpers else ""
    return [f"{states}, {moves}{helped}", size, f"{seconds:.2f}, {check_seconds:.2f}", bound]


def own(atom: str) -> list[str]:
    """The cells of the program's own leaf."""
    text, seconds, _, _ = measured([PROGRAM, "compile"], f"vars {' '.join(NAMES)}\n{atom}\n".encode())
    line = text.decode().split("\n", 1)[0]
    return cells_of(line, seconds) if line.startswith("{") else [line.removeprefix("fault: "), "", "", ""]


def succinct(atom: str) -> list[str]:
    """The cells of the succinct leaf."""
    start = time.process_time()
    line = compiled(read_predicate(atom, NAMES), NAMES).bundle.line()
    return cells_of(line, time.process_time() - start)


def meetings(net: Net, counts: tuple[int, int]) -> str:
    """The median of the meetings to the end, in thousands."""
    found = []
    for seed in range(SEEDS):
        run = Simulation(net, counts, seed)
        carry_out(run, Limits(), None)
        found.append(run.last_change)
    return f"{statistics.median(found) / 1000:,.0f}"


def meeting_rows() -> Iterator[list[str]]:
    """For each leaf its meetings over sizes."""
    for bound in BOUNDS:
        atom = f"x - y < {bound}"
        if bound <= OWN_BOUND:
            text = measured([PROGRAM, "compile"], f"vars x y\n{atom}\n".encode())[0]
            net = net_of(json.loads(text)["net"])
            yield [f"`{atom}`, own", *(meetings(net, counts) for counts in CROWDS)]
        net = compiled(read_predicate(atom, NAMES), NAMES).bundle.net
        yield [f"`{atom}`", *(meetings(net, counts) for counts in CROWDS)]


def table(head: list[str], rows: list[list[str]]) -> str:
    """The lines of a table."""
    return "".join(f"| {' | '.join(row)} |\n" for row in [head, ["---"] * len(head), *rows])


def main() -> None:
    expect_program()
    head = ["Atom", "Own: states, moves", "bytes", "`compile`, `check`", "K"]
    head += ["Succinct: states, moves (helpers)", "bytes", "making, `check`", "K"]
    text = table(head, [[f"`{atom}`", *own(atom), *succinct(atom)] for atom in ATOMS]) + "\n"
    crowds = [f"x={x} y={y}" for x, y in CROWDS]
    text += table(["Thousand meetings to the end", *crowds], list(meeting_rows()))
    if IS_SHORT:
        print(text, end="")
        return
    with open(PAGE) as page:
        before, _, rest = page.read().partition(BEGIN)
    behind = rest.partition(END)[2]
    with open(PAGE, "w") as page:
        page.write(f"{before}{BEGIN}\n{text}\n{END}{behind}")


main()
