"""Larger crowds than can be tried in full: random ways by meetings from some inputs, to an end that is wrong."""
from __future__ import annotations

import random
from itertools import permutations
from typing import Callable, Iterator

from ..protocol.nets import pair
from ..protocol.predicates import Predicate, value_at
from .explore import Graph, leaf_table
from .flaws import WRONG, Flaw
from .limits import clock
from .whole import System, Words, shown_leaf, words_of

SEED = 2026
LEAST, MOST = 8, 200  # agents beside helpers
INPUTS = 8  # of one size at most
CHANGES = 12  # of a way, for each agent
IDLE = 12  # meetings without a change, after which all pairs are looked at


def larger_flaw(
    system: System, tree: Predicate, stop: float, meets: Callable[[tuple[int, ...]], bool] = lambda counts: True
) -> Flaw | None:
    """A wrong end of an input that meets what is assumed, of the fewest agents that were tried."""
    rng = random.Random(SEED)
    for inputs in (_alone, _mixed):
        for agents in range(LEAST, MOST + 1):
            for counts in inputs(len(system.inputs), agents, rng):
                if clock() > stop:
                    return None
                flaw = _walk(system, tree, counts, rng) if meets(counts) else None
                if flaw is not None:
                    return flaw
    return None


def _alone(variables: int, agents: int, rng: random.Random) -> list[tuple[int, ...]]:
    """All agents in one variable."""
    return [tuple(agents * (at == i) for at in range(variables)) for i in range(variables)]


def _mixed(variables: int, agents: int, rng: random.Random) -> list[tuple[int, ...]]:
    """All agents but one in one variable, halves, and some at random."""
    cuts = sorted(rng.randint(0, agents) for _ in range(variables - 1))
    found = [tuple(high - low for low, high in zip([0, *cuts], [*cuts, agents]))]
    for i, j in permutations(range(variables), 2):
        for first in (agents - 1, agents // 2, agents // 2 + 1):
            found.append(tuple(first * (at == i) + (agents - first) * (at == j) for at in range(variables)))
    return found if len(found) <= INPUTS else rng.sample(found, INPUTS)


class _Way:
    """Agents, each in a state, and the moves so far."""

    def __init__(self, system: System, counts: tuple[int, ...], rng: random.Random) -> None:
        self.system, self.rng = system, rng
        self.agents = [q for q, k in enumerate(Graph(system, counts).start) for _ in range(k)]
        self.moves: list[int] = []
        self.known: dict[tuple[int, int], list[int]] = {}

    def _of(self, p: int, q: int) -> list[int]:
        """All moves for two states, those of meetings first."""
        found = self.known.get((p, q))
        if found is None:
            system = self.system
            if isinstance(system, Words):
                words = system
                found = sorted(words.of(p, q), key=lambda t: t not in words.meetings)
            else:
                found = leaf_table(system).get(pair(p, q), [])
            self.known[p, q] = found
        return found

    def _meeting(self, p: int, q: int) -> int | None:
        """The move that a meeting takes."""
        found, system = self._of(p, q), self.system
        if not found or isinstance(system, Words) and found[0] not in system.meetings:
            return None
        return found[0]

    def meet(self, a: int, b: int) -> bool:
        """Two agents meet; whether that changed something."""
        t = self._meeting(self.agents[a], self.agents[b])
        if t is None:
            return False
        p, _, r, s = self.system.moves[t]
        self.agents[a], self.agents[b] = (r, s) if self.agents[a] == p else (s, r)
        self.moves.append(t)
        return True

    def _pairs(self) -> Iterator[tuple[int, int]]:
        """Two agents for each pair of states that are there."""
        here: dict[int, list[int]] = {}
        for agent, q in enumerate(self.agents):
            here.setdefault(q, []).append(agent)
        for p, some in here.items():
            yield from ((some[0], others[0]) for q, others in here.items() if p < q)
            yield from [(some[0], some[1])] if len(some) > 1 else []

    def goes_on(self) -> bool:
        """Makes one more change, where meetings do."""
        for _ in range(IDLE):
            a, b = self._agent(), self._agent()
            if a != b and self.meet(a, b):
                return True
        found = [(a, b) for a, b in self._pairs() if self._meeting(self.agents[a], self.agents[b]) is not None]
        return bool(found) and self.meet(*self.rng.choice(found))

    def _agent(self) -> int:
        return int(self.rng.random() * len(self.agents))

    def is_terminal(self) -> bool:
        """Whether no move at all is possible."""
        return not any(self._of(self.agents[a], self.agents[b]) for a, b in self._pairs())

    def crowd(self) -> tuple[int, ...]:
        """The agents in each state."""
        return tuple(self.agents.count(q) for q in range(max(self.agents) + 1))


def _walk(system: System, tree: Predicate, counts: tuple[int, ...], rng: random.Random) -> Flaw | None:
    """A way to its end, where that is wrong."""
    way, want = _Way(system, counts, rng), value_at(tree, counts)
    while way.goes_on():
        if len(way.moves) > CHANGES * len(way.agents):
            return None
    if all(system.outputs[q] == want for q in way.agents) or not way.is_terminal():
        return None
    leaf, crowd = shown_leaf(system), way.crowd()
    return Flaw(
        kind=WRONG,
        counts=counts,
        crowd=crowd + (0,) * (len(leaf.states) - len(crowd)),
        moves=way.moves,
        by_meetings=True,
        leaf=leaf,
        words=words_of(system),
    )
