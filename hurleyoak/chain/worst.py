"""The worst of all inputs of so many agents: the most meetings to the end, and the least chance of the right output."""
from __future__ import annotations

from dataclasses import dataclass
from math import comb, inf, isfinite
from typing import Iterator, Mapping, Sequence

from ..faults import InputFault
from ..protocol.predicates import value_at
from ..protocol.reactions import Reactions
from ..text.loaded import Loaded
from .answers import Each, Number, quiet
from .chains import Chain
from .rules import Rules
from .space import TooLarge

INPUT_LIMIT = 20_000  # of so many agents

Counts = tuple[int, ...]


@dataclass(frozen=True)
class Worst:
    """Of all inputs of so many agents, helpers among them: the greatest mean of the meetings to the end, with its
    deviation and its input. Where there is a predicate, the least chance that the output is right, and its input."""

    agents: int
    inputs: int
    crowds: int
    mean: Number
    deviation: float
    slowest: Counts
    right: Number | None = None
    weakest: Counts | None = None


def inputs_of(loaded: Loaded, agents: int) -> list[Counts]:
    """All inputs with so many agents that the file doesn't leave out."""
    counted = agents - len(loaded.net.leaves[0].helpers)
    names = len(loaded.net.names)
    if counted < 0:
        return []
    if comb(counted + names - 1, names - 1) > INPUT_LIMIT:
        raise InputFault(f"{agents} agents have over {INPUT_LIMIT:,} inputs, which are too many")
    return [counts for counts in _sums(counted, names) if loaded.meets(counts)]


def _sums(total: int, parts: int) -> Iterator[Counts]:
    """All ways to share a number among so many parts."""
    if parts == 1:
        yield (total,)
        return
    for first in range(total + 1):
        for rest in _sums(total - first, parts - 1):
            yield (first, *rest)


def worst_of(loaded: Loaded, agents: int, fractions: bool = False, each: Each = quiet) -> Worst | None:
    """The worst inputs of so many agents, None where there are no inputs; InputFault where they are too many."""
    inputs = inputs_of(loaded, agents)
    if not inputs:
        return None
    reactions = Reactions(loaded.net)
    starts = [reactions.start(counts) for counts in inputs]
    try:
        chain = Chain(loaded.net, starts, fractions, each, Rules(loaded.net, [w for s in starts for w in s]))
    except TooLarge:
        raise InputFault(f"the chain of all inputs of {agents} agents is too large") from None
    chain.equations.eliminate()
    places = [chain.number(start) for start in starts]
    means = _means(chain, places)
    slow = max(range(len(inputs)), key=lambda at: means[at])
    answer = chain.answer(starts[slow]) if isfinite(means[slow]) else None
    right = _right(loaded, chain, inputs, places)
    least, weak = (None, None) if right is None else min(zip(right, inputs))
    return Worst(
        agents,
        len(inputs),
        len(chain.space),
        means[slow],
        inf if answer is None else answer.deviation,
        inputs[slow],
        least,
        weak,
    )


def _means(chain: Chain, places: Sequence[int]) -> list[Number]:
    """The mean of each input to its end; infinite where only some executions come to a terminal crowd."""
    means = chain.means()
    is_alone = [size == 1 for size in chain.classes.sizes.tolist()]
    ending, endless = chain.chances(is_alone), chain.chances([not alone for alone in is_alone])
    return [inf if ending[at] and endless[at] else means[at] for at in places]


def _right(loaded: Loaded, chain: Chain, inputs: Sequence[Counts], places: Sequence[int]) -> list[Number] | None:
    """The chance of the predicate's value at each input."""
    if loaded.predicate is None:
        return None
    tree = loaded.whole_tree()
    by_value: Mapping[bool, Sequence[Number]] = {
        value: chain.chances([output is value for output in chain.outputs]) for value in (True, False)
    }
    return [by_value[value_at(tree, counts)][at] for counts, at in zip(inputs, places)]
