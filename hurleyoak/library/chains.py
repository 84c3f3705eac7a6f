"""What a small crowd's chain says, for a program or a notebook: computed, and not proved."""
from __future__ import annotations

from dataclasses import dataclass, fields
from html import escape
from typing import Any, Iterable

from ..chain.answers import Answer, quiet
from ..chain.chains import Chain
from ..chain.fitting import too_large
from ..chain.space import TooLarge
from ..chain.worst import worst_of
from ..protocol.predicates import value_at
from ..protocol.reactions import Reactions
from ..show.chances import time_of, told
from ..simulation.timeline import Pace
from ..text.loaded import Loaded
from .modelled import in_own_time
from .results import Table

SHOWN = 10  # ends and crowds in a notebook


@dataclass(frozen=True, kw_only=True)
class Exact(Answer):
    """A chain's answer; `value` is the predicate's at the input, None where there is no predicate."""

    value: bool | None
    pace: Pace

    @property
    def time(self) -> tuple[float, float]:
        """The mean and the deviation of the time to the end: a network's own, or meetings per agent."""
        return time_of(self, self.pace)

    @property
    def right(self) -> Any:
        """The chance that all output the predicate's value at the end; None without a predicate."""
        return None if self.value is None else self.outputs[self.value]

    def _repr_html_(self) -> str:
        return "<pre>" + escape("\n".join(told(self, self.value, SHOWN))) + "</pre>"


def exact(loaded: Loaded, counts: tuple[int, ...], fractions: bool, after: int | None, volume: float | None) -> Exact:
    """The answer of one input; InputFault where its chain is too large."""
    agents = sum(counts) + len(loaded.net.leaves[0].helpers)
    net, pace = in_own_time(loaded, agents, volume)
    start = Reactions(net).start(counts)
    try:
        chain = Chain(net, [start], fractions)
    except TooLarge:
        raise too_large(net, counts, fractions, quiet) from None
    answer = chain.answer(start, after)
    value = None if loaded.predicate is None else value_at(loaded.whole_tree(), counts)
    return Exact(value=value, pace=pace, **{field.name: getattr(answer, field.name) for field in fields(answer)})


def worst(loaded: Loaded, agents: Iterable[int], fractions: bool) -> Table:
    """A row for each size: the slowest input with its mean, and the least chance of a right output."""
    rows: list[dict[str, Any]] = []
    for size in agents:
        found = worst_of(loaded, size, fractions)
        if found is not None:
            counts = dict(zip(loaded.net.names, found.slowest))
            row = {"agents": size, "inputs": found.inputs, "crowds": found.crowds, **counts}
            rows.append({**row, "mean": found.mean, "deviation": found.deviation, "right": found.right})
    return Table(rows, "computed of the chain, not proved")
