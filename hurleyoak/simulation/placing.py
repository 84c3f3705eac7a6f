"""How agents have places of their own: on a graph, in rounds, or both."""
from __future__ import annotations

from dataclasses import dataclass, replace

from ..protocol.nets import Net
from ..protocol.reactions import Word
from .graphs import Graph
from .neighbours import OnGraph
from .placed import Placed
from .rounds import InRounds
from .carrying import CHANGES_AN_AGENT, Limits

CHANGE_LIMIT = 10**6  # changes at most, where no other limit is given


@dataclass(frozen=True)
class Placing:
    """How a run is made agent by agent."""

    graph: Graph | None
    rounds: bool

    def limits(self, limits: Limits, agents: int) -> Limits:
        """The limits of a run, with the usual one of changes."""
        changes = max(CHANGE_LIMIT, CHANGES_AN_AGENT * agents)
        return limits if limits.changes is not None else replace(limits, changes=changes)

    def make(self, net: Net, crowd: dict[Word, int], seed: int) -> Placed:
        """The run at its start, with the agents at random places."""
        return (InRounds if self.rounds else OnGraph)(net, crowd, self.graph, seed)
