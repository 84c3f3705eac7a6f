"""Small crowds by brute force: real counterexamples, the fewest agents first, and of these the shortest way."""
from __future__ import annotations

from collections import deque
from functools import cached_property
from itertools import combinations_with_replacement
from typing import Callable, Iterable, Iterator

from ..protocol.nets import Leaf, pair
from ..protocol.predicates import Predicate, value_at
from ..proof.bundles import start_crowd
from ..limits import AGENT_LEAST, AGENT_LIMIT
from .flaws import ENDLESS, RESTLESS, ROUND_SHOWN, WRONG, Crowd, Flaw, Tried
from .limits import clock
from .whole import System, Words, shown_leaf, words_of

CROWDS = 60_000  # crowds of one input at most


def first_moves(leaf: System) -> frozenset[int]:
    """The moves that meetings take: of those for the same two states the first that isn't silent."""
    if isinstance(leaf, Words):
        return frozenset(leaf.meetings)
    seen: dict[tuple[int, int], int] = {}
    for t in leaf.active:
        seen.setdefault(pair(*leaf.moves[t][:2]), t)
    return frozenset(seen.values())


def steps(leaf: System, crowd: Crowd) -> Iterator[tuple[int, Crowd]]:
    """The moves that a crowd allows, with the crowds behind them."""
    if isinstance(leaf, Words):
        yield from leaf.steps(crowd)
        return
    here = [q for q, k in enumerate(crowd) if k]
    for i, p in enumerate(here):
        for q in here[i:]:
            if p == q and crowd[p] < 2:
                continue
            for t in leaf_table(leaf).get((p, q), ()):
                new = list(crowd)
                a, b, r, s = leaf.moves[t]
                new[a] -= 1
                new[b] -= 1
                new[r] += 1
                new[s] += 1
                yield t, tuple(new)


_TABLES: dict[int, tuple[Leaf, dict[tuple[int, int], list[int]]]] = {}


def leaf_table(leaf: Leaf) -> dict[tuple[int, int], list[int]]:
    """The moves for each pair of states."""
    kept = _TABLES.get(id(leaf))
    if kept is None or kept[0] is not leaf:
        table: dict[tuple[int, int], list[int]] = {}
        for t in leaf.active:
            table.setdefault(pair(*leaf.moves[t][:2]), []).append(t)
        _TABLES.clear()
        kept = _TABLES[id(leaf)] = (leaf, table)
    return kept[1]


class Graph:
    """All crowds that one input comes to."""

    def __init__(self, leaf: System, counts: tuple[int, ...]) -> None:
        self.leaf, self.counts = leaf, counts
        self.start: Crowd = leaf.start(counts) if isinstance(leaf, Words) else tuple(start_crowd(leaf, counts))
        self.edges: dict[Crowd, list[tuple[int, Crowd]]] = {}

    def built(self, limit: int, stop: float) -> bool:
        """Builds it; whether that was possible within so many crowds and this time."""
        queue = [self.start]
        seen = {self.start}
        for crowd in queue:
            edges = list(steps(self.leaf, crowd))
            self.edges[crowd] = edges
            for _, new in edges:
                if new not in seen:
                    seen.add(new)
                    queue.append(new)
            if len(queue) > limit or clock() > stop:
                return False
        return True

    @cached_property
    def back(self) -> dict[Crowd, list[Crowd]]:
        """The crowds that a move leads from, for each crowd."""
        out: dict[Crowd, list[Crowd]] = {}
        for crowd, edges in self.edges.items():
            for _, new in edges:
                out.setdefault(new, []).append(crowd)
        return out

    def leading(self, goals: Iterable[Crowd]) -> set[Crowd]:
        """The crowds from which one of the goals is reached."""
        todo = list(goals)
        good = set(todo)
        while todo:
            for old in self.back.get(todo.pop(), ()):
                if old not in good:
                    good.add(old)
                    todo.append(old)
        return good

    def ending(self) -> set[Crowd]:
        """The crowds from which a terminal one is reached."""
        return self.leading(crowd for crowd, edges in self.edges.items() if not edges)

    def at_rest(self, want: bool) -> set[Crowd]:
        """The crowds from which no crowd is reached in which an agent has another output."""
        outputs = self.leaf.outputs
        return set(self.edges) - self.leading(
            c for c in self.edges if any(k and outputs[q] != want for q, k in enumerate(c))
        )

    def way(self, goals: Callable[[Crowd], bool], moves: frozenset[int]) -> tuple[Crowd, list[int]] | None:
        """The shortest way by these moves to a crowd that is wanted."""
        came: dict[Crowd, tuple[Crowd, int] | None] = {self.start: None}
        queue = deque([self.start])
        while queue:
            crowd = queue.popleft()
            if goals(crowd):
                return crowd, _path(came, crowd)
            for t, new in self.edges[crowd]:
                if t in moves and new not in came:
                    came[new] = (crowd, t)
                    queue.append(new)
        return None

    def round(self, crowd: Crowd) -> list[Crowd]:
        """Crowds that go round, from one from which no terminal crowd is reached."""
        seen: dict[Crowd, int] = {}
        order: list[Crowd] = []
        while crowd not in seen:
            seen[crowd] = len(order)
            order.append(crowd)
            crowd = next((new for _, new in self.edges[crowd] if new in seen), self.edges[crowd][0][1])
        return order[seen[crowd] :]


def _path(came: dict[Crowd, tuple[Crowd, int] | None], crowd: Crowd) -> list[int]:
    out: list[int] = []
    step = came[crowd]
    while step is not None:
        crowd, t = step
        out.append(t)
        step = came[crowd]
    return out[::-1]


def flaw_at(
    leaf: System, tree: Predicate, counts: tuple[int, ...], stop: float, limit: int = CROWDS
) -> Flaw | int | None:
    """A flaw at an input; or the number of its crowds where there is none; None where they are too many.

    A RESTLESS one is given where there is no other.
    """
    graph = Graph(leaf, counts)
    if not graph.built(limit, stop):
        return None
    want = value_at(tree, counts)
    ending = graph.ending()
    # (outputs matter only where some crowds never end)
    rest = graph.at_rest(want) if len(ending) < len(graph.edges) else set()
    may_rest = graph.leading(rest)

    def is_flawed(crowd: Crowd) -> bool:
        if crowd not in ending:
            return crowd not in may_rest
        return not graph.edges[crowd] and any(k and leaf.outputs[q] != want for q, k in enumerate(crowd))

    def is_restless(crowd: Crowd) -> bool:
        return crowd not in ending and crowd in rest

    wanted = next((test for test in (is_flawed, is_restless) if any(map(test, graph.edges))), None)
    if wanted is None:
        return len(graph.edges)
    by_meetings = graph.way(wanted, first_moves(leaf))
    found = by_meetings or graph.way(wanted, frozenset(leaf.active))
    assert found is not None
    crowd, moves = found
    kind = WRONG if crowd in ending else ENDLESS if wanted is is_flawed else RESTLESS
    around = [] if kind == WRONG else graph.round(crowd)
    hidden = sorted(set(moves) - first_moves(leaf))
    return Flaw(
        kind=kind,
        counts=counts,
        crowd=crowd,
        moves=moves,
        by_meetings=by_meetings is not None,
        round=around,
        size=len(graph.edges),
        leaf=shown_leaf(leaf),
        words=words_of(leaf),
        hidden=hidden,
    )


def inputs_of(variables: int, agents: int) -> Iterator[tuple[int, ...]]:
    """All inputs with so many agents plus helpers."""
    for chosen in combinations_with_replacement(range(variables), agents):
        yield tuple(chosen.count(i) for i in range(variables))


def by_arrays() -> Callable[[System, Predicate, tuple[int, ...], float], Flaw | int | None]:
    """`flaw_at`, by arrays where there is numpy."""
    try:
        from .packed import flaw_of
    except ImportError:
        return flaw_at
    return flaw_of


def explore(
    leaf: System,
    tree: Predicate,
    agents: int | None,
    seconds: float,
    progress: Callable[[Tried, int], None] | None = None,
    meets: Callable[[tuple[int, ...]], bool] = lambda counts: True,
) -> tuple[Flaw | None, Tried]:
    """The best flaw among the inputs of the fewest agents that have one, and what was tried. Crowds that are stable
    without being silent are no flaw: the first is kept, and others are looked for.

    Without a number of agents it goes on until the time is up. An input of too many crowds is passed over, and so is
    one that doesn't meet what is assumed.
    """
    stop = clock() + seconds
    tried = Tried()
    flaw_of = by_arrays()
    least = max(0, AGENT_LEAST - len(leaf.helpers))
    is_whole = True
    for n in range(least, (AGENT_LIMIT if agents is None else agents) + 1):
        best: Flaw | None = None
        before, left_out = tried.inputs, 0
        for counts in inputs_of(len(leaf.inputs), n):
            if not meets(counts):
                left_out += 1
                continue
            tried.met += 1
            found = flaw_of(leaf, tree, counts, stop)
            if isinstance(found, Flaw) and found.kind == RESTLESS:
                tried.restless = tried.restless or found
                found = found.size
            if isinstance(found, Flaw):
                if best is None or (not found.by_meetings, len(found.moves), found.kind) < (
                    not best.by_meetings,
                    len(best.moves),
                    best.kind,
                ):
                    best = found
            elif found is None:
                is_whole = False
            else:
                tried.inputs, tried.crowds = tried.inputs + 1, tried.crowds + found
            if progress:
                progress(tried, n)
            if clock() > stop:
                break
        if best is not None:
            return best, tried
        if clock() > stop or tried.inputs == before and not left_out:
            break
        tried.agents = n if is_whole else tried.agents
    return None, tried
