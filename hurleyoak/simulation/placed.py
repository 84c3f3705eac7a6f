"""A run agent by agent, in which each has a place of its own."""
from __future__ import annotations

from itertools import accumulate
from typing import Callable

from ..faults import InputFault
from ..protocol.nets import Net
from ..protocol.reactions import Reactions, Word
from .graphs import AGENT_LIMIT, Edge, Graph
from .simulation import Simulation

Pair = tuple[int, int]
Options = tuple[list[Pair], list[int]]  # what the two become, and the sums of their shares up to each


class Placed(Simulation):
    """A crowd in which each agent has a number, and `states` the number of its word."""

    by_counts = False

    def __init__(self, net: Net, crowd: dict[Word, int], graph: Graph | None, seed: int) -> None:
        super().__init__(net, tuple(0 for _ in net.names), seed)
        self.graph = graph
        self.reactions = Reactions(net, swaps=graph is not None)
        self.agents = sum(crowd.values())
        if self.agents > AGENT_LIMIT:
            raise InputFault(f"agents with places of their own are at most {AGENT_LIMIT:,}")
        self.options: dict[Pair, Options | None] = {}
        self._take({})
        self.states = [self.number(word) for word, k in crowd.items() for _ in range(k)]
        self.random.shuffle(self.states)
        self.edges: list[Edge] = list(graph.edges) if graph else []
        self._count()
        self.since = 0 if self.yes in (0, self.agents) else None
        self._begin()

    def _begin(self) -> None:
        """Makes the tables anew."""

    def _take(self, crowd: dict[Word, int]) -> None:
        self.says: list[bool] = []
        super()._take(crowd)

    def _count(self) -> None:
        self.counts[:] = [0] * len(self.words)
        for state in self.states:
            if state >= 0:
                self.counts[state] += 1
        self.agents = sum(self.counts)
        self.yes = sum(k for is_yes, k in zip(self.says, self.counts) if is_yes)

    def _add(self, word: Word, count: int) -> int:
        """A new word."""
        self.words.append(word)
        self.says.append(self.reactions.output(word))
        self.counts.append(count)
        self.numbers[word] = len(self.words) - 1
        return len(self.words) - 1

    def made(self, p: int, q: int) -> Options | None:
        """What an agent in p that begins a meeting with one in q becomes with it; None where nothing ever changes."""
        if (p, q) not in self.options:
            found = self.reactions.options(self.words[p], self.words[q])
            pairs = [(self.number(r), self.number(s)) for (r, s), _ in found]
            shares = list(accumulate(share for _, share in found))
            self.options[p, q] = (pairs, shares) if any(pair != (p, q) for pair in pairs) else None
        return self.options[p, q]

    def put(self, net: Net, crowd: dict[Word, int]) -> None:
        """Goes on from another crowd: agents that go leave their places, and those that turn keep them."""
        before, after = self.output, {self.number(word): k for word, k in crowd.items()}
        more = {at: after.get(at, 0) - k for at, k in enumerate(self.counts)}
        came = [at for at, k in more.items() for _ in range(k)]
        gone = [one for at, k in more.items() if k < 0 for one in self._some(at, -k)]
        if len(came) > len(gone):
            raise InputFault("no agents come where each has its place: nobody says whom they stand beside")
        self.random.shuffle(gone)
        for number, one in enumerate(gone):
            self.states[one] = came[number] if number < len(came) else -1
        self.edges = [(u, v) for u, v in self.edges if self.states[u] >= 0 and self.states[v] >= 0]
        self._count()
        if self.output is None or self.output != before:
            self.since = None if self.output is None else self.meetings
        self.ended = None
        self._begin()

    def _some(self, state: int, number: int) -> list[int]:
        """So many agents with a word, all such samples equally likely."""
        return self.random.sample([one for one, its in enumerate(self.states) if its == state], number)

    def _noted(self, yes: int, on_change: Callable[[], None] | None) -> None:
        """Notes a change by which so many agents more output true."""
        self.last_change = self.meetings
        if yes:
            self.yes += yes
            self.since = self.meetings if self.yes in (0, self.agents) else None
        if on_change:
            on_change()
