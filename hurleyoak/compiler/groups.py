"""The states of a compiled leaf by what an agent in them is worth, read from their names."""
from __future__ import annotations

import re
from math import prod
from typing import Iterator

from ..protocol.nets import Leaf
from .worths import worths_of, worths_told

_DIGIT = re.compile(r"(\d+)\.(\d+)[ft']?")
HUBS = ("Hf", "Ht")


def groups_of(leaf: Leaf) -> dict[str, list[int]]:
    """The states of each group under its name; none where the names say no worth."""
    worth = worths_of(leaf)
    if worth is None:
        return _digits_of(leaf)
    known: dict[str, int] = worth  # (a lambda does not see that it is there)
    out: dict[str, list[int]] = {}
    for q, name in sorted(enumerate(leaf.states), key=lambda both: known[both[1]]):
        out.setdefault(f"worth {known[name]}", []).append(q)
    return out


def _digits_of(leaf: Leaf) -> dict[str, list[int]]:
    """The groups of a counter: the hub, each digit with the place that it counts, and agents that still add or
    follow."""
    found = {q: match for q, name in enumerate(leaf.states) if (match := _DIGIT.fullmatch(name))}
    places = sorted({int(match[1]) for match in found.values()})
    if not places or places != list(range(len(places))) or not set(HUBS) <= set(leaf.states):
        return {}
    radices = [1 + max(int(match[2]) for match in found.values() if int(match[1]) == i) for i in places]
    out = {"hub": [leaf.states.index(name) for name in HUBS]}
    for i in places:
        out[f"digit of {prod(radices[:i])}"] = [q for q, match in found.items() if int(match[1]) == i]
    out["others"] = [q for q in range(len(leaf.states)) if q not in found and leaf.states[q] not in HUBS]
    return out


def leaf_told(leaf: Leaf) -> Iterator[str]:
    """What a reader of a compiled leaf is told of its states."""
    yield from worths_told(leaf)
    groups = _digits_of(leaf)
    if groups:
        places = ", ".join(name.removeprefix("digit of ") for name in groups if name.startswith("digit"))
        yield f"helpers count, by digits that are worth {places}: i.d is the digit d of place i, the first place is 0"
        yield "  v@i is an agent that still has v to add at place i; who has nothing to add is f or t"
        yield "  f and t are the two answers; Hf and Ht are the hub, which turns them, as the callers F and T do"
        yield "  a mark is on a digit that has just become right, and tells the hub so once"
