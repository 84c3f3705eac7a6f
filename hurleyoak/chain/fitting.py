"""What is said of a crowd that is too large for a chain: how many crowds come up, and which one fits."""
from __future__ import annotations

from math import log
from typing import Sequence

from ..faults import InputFault
from ..limits import AGENT_LEAST
from ..protocol.nets import Net
from ..protocol.reactions import Reactions
from .answers import Each
from .chains import Chain
from .space import TooLarge

TRIES = 2  # between the greatest size that is known to fit and the least that doesn't

Counts = tuple[int, ...]
Known = list[tuple[int, int, Counts]]  # agents, crowds, counts


def scaled(counts: Sequence[int], agents: int) -> Counts:
    """About so many agents in the same proportions; who is there at all stays."""
    whole = sum(counts)
    return tuple(max(1, round(k * agents / whole)) if k else 0 for k in counts)


def _size(net: Net, counts: Counts, fractions: bool, each: Each) -> int | None:
    """How many crowds come up; None where they are too many, or too hard to solve."""
    try:
        return len(Chain(net, [Reactions(net).start(counts)], fractions, each).space)
    except TooLarge:
        return None


def too_large(net: Net, counts: Counts, fractions: bool, each: Each) -> InputFault:
    """The refusal of an input."""
    known: Known = []
    agents = sum(counts)
    low, high = 0, max(2 * AGENT_LEAST, sum(1 for k in counts if k))
    while high < agents and _tried(net, counts, high, fractions, each, known):
        low, high = high, min(2 * high, agents)
    for _ in range(TRIES if known else 0):
        middle = (low + high) // 2
        low, high = (middle, high) if _tried(net, counts, middle, fractions, each, known) else (low, middle)
    return InputFault(_told(net, counts, sorted(known)))


def _tried(net: Net, counts: Counts, agents: int, fractions: bool, each: Each, known: Known) -> bool:
    """Whether so many agents fit, which is noted."""
    fewer = scaled(counts, agents)
    size = _size(net, fewer, fractions, each)
    if size is not None:
        known.append((sum(fewer), size, fewer))
    return size is not None


def _told(net: Net, counts: Counts, known: Known) -> str:
    """The sentence, with the size by the growth between the two greatest that fit."""
    agents = sum(counts)
    told = f"the chain of {agents:,} agents is too large"
    if not known:
        return f"{told}, and so is that of the fewest agents; `simulate` runs them"
    best, size, fewer = known[-1]
    others = [(one, count) for one, count, _ in known if one < best and 1 < count < size]
    if others and size > 1:
        one, count = others[-1]
        power = log(size / count) / log(best / one)
        told += f": it has about {size * (agents / best) ** power:.2g} crowds"
    words = " ".join(f"{name}={k}" for name, k in zip(net.names, fewer) if k)
    return f"{told}; `{words}` fits, with {size:,} crowds"
