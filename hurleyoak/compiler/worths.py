"""What the states of a succinct leaf are worth, read from their names and held against its moves."""
from __future__ import annotations

import re
from typing import Iterator

from ..protocol.nets import Leaf

_POWER = re.compile(r"2\^(\d+)([ft]?)")
_NUMBER = re.compile(r"(?:\w+\.)?(-?\d+)(?:[ft]?|'*)|0[FT]")
CALLERS = {"0F", "0T"}
PLACE_LIMIT = 40


def _plain(name: str) -> int | None:
    """The worth that a name says by itself."""
    if found := _POWER.fullmatch(name):
        return 1 << int(found[1]) if int(found[1]) <= PLACE_LIMIT else None
    if found := _NUMBER.fullmatch(name):
        return int(found[1] or 0)
    return None


def worths_of(leaf: Leaf) -> dict[str, int] | None:
    """The worth of each state of a leaf of powers; None where a name says nothing, or a move changes the sum."""
    places = [int(found[1]) for name in leaf.states if (found := _POWER.fullmatch(name)) and found[2]]
    width = 1 << max(places, default=-1) + 1
    hubs = {"N": -width, "O": 0, "P": width}
    out: list[int] = []
    for name in leaf.states:
        worth = hubs.get(name, _plain(name))
        if worth is None:
            return None
        out.append(worth)
    if not set(hubs) <= set(leaf.states):
        return None
    if any(out[p] + out[q] != out[r] + out[s] for p, q, r, s in leaf.moves):
        return None
    return dict(zip(leaf.states, out))


def worths_told(leaf: Leaf) -> Iterator[str]:
    """What a reader of the leaf is told: the sum that no move changes."""
    worth = worths_of(leaf)
    if worth is None:
        return
    yield "no move changes the sum of what the agents are worth:"
    yield f"  N {worth['N']}, O 0 and P {worth['P']}; 2^i is worth 2^i, and a number is worth itself"
    yield "  f and t after a worth are the two answers; N turns f to t, and O turns t to f"
    if CALLERS <= set(leaf.states):
        yield "  0F and 0T are callers, which N and O make: they turn the answers of all others too"
    if any(value < 0 for name, value in worth.items() if name != "N"):
        yield "  a number below 0 is a debtor, which waits for an agent that is worth more"
    if any("." in name for name in leaf.states):
        yield "  a name before a dot is the variable whose agent it was"
