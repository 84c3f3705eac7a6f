"""Exact expected meetings of small crowds: the chain of all crowds that a leaf's inputs lead to, solved as equations."""
from __future__ import annotations

import time
from dataclasses import dataclass
from typing import Iterator, Sequence

from ..proof.bundles import start_crowd
from ..protocol.nets import Leaf, pair

LEAST_AGENTS, MOST_AGENTS = 4, 10
MOST_CROWDS = 3_000  # of a chain that is solved
SECONDS = 2.0  # of the processor for the chains of one leaf, at most this and the last one's
ROUNDING = 1e-6  # of an expected number, relative
GREATEST = 1e12  # meetings, above which floats aren't trusted

Crowd = tuple[int, ...]
Step = tuple[Crowd, float]


@dataclass(frozen=True)
class Longest:
    """The input of so many agents, helpers among them, that takes the most meetings to a terminal crowd on average."""

    agents: int
    counts: tuple[int, ...]
    meetings: float


def inputs_of(leaf: Leaf, agents: int) -> Iterator[tuple[int, ...]]:
    """All inputs that have this number of agents with the helpers."""

    def parts(left: int, places: int) -> Iterator[tuple[int, ...]]:
        if places == 1:
            yield (left,)
            return
        for first in range(left + 1):
            yield from ((first, *rest) for rest in parts(left - first, places - 1))

    left = agents - len(leaf.helpers)
    return parts(left, len(leaf.inputs)) if left >= 0 else iter(())


def longest_of(leaf: Leaf) -> Longest | None:
    """The input that takes longest of 4 to 10 agents, as far as the chains are small; None where none is solved."""
    end, worst = time.process_time() + SECONDS, None
    for agents in range(LEAST_AGENTS, MOST_AGENTS + 1):
        try:
            found = longest(leaf, agents)
        except ImportError:
            return None
        if found is not None and (worst is None or found.meetings > worst.meetings):
            worst = found
        if time.process_time() > end:
            break
    return worst


class _Moves:
    """The moves of a leaf by the states that meet; several for the same two have equal chances."""

    def __init__(self, leaf: Leaf) -> None:
        self.by_pair: dict[tuple[int, int], list[tuple[int, int]]] = {}
        for t in leaf.active:
            p, q, r, s = leaf.moves[t]
            self.by_pair.setdefault(pair(p, q), []).append((r, s))

    def steps(self, crowd: Crowd) -> list[Step]:
        """Each crowd that a meeting makes, with how many of the ordered pairs of agents make it."""
        out: list[Step] = []
        for (p, q), after in self.by_pair.items():
            pairs = crowd[p] * (crowd[p] - 1) if p == q else 2 * crowd[p] * crowd[q]
            if pairs:
                for r, s in after:
                    made = list(crowd)
                    for state, change in ((p, -1), (q, -1), (r, 1), (s, 1)):
                        made[state] += change
                    out.append((tuple(made), pairs / len(after)))
        return out


def longest(leaf: Leaf, agents: int) -> Longest | None:
    """The input of this many agents that takes longest; None where the chain is too large, or has no solution that is
    trusted; ImportError where SciPy isn't there."""
    starts = {tuple(start_crowd(leaf, counts)): counts for counts in inputs_of(leaf, agents)}
    if not starts:
        return None
    moves = _Moves(leaf)
    numbers: dict[Crowd, int] = {crowd: i for i, crowd in enumerate(starts)}
    todo, steps = list(starts), []
    for crowd in todo:
        steps.append(moves.steps(crowd))
        for made, _ in steps[-1]:
            if made not in numbers:
                if len(numbers) >= MOST_CROWDS:
                    return None
                numbers[made] = len(numbers)
                todo.append(made)
    found = _solved([[(numbers[made], pairs) for made, pairs in some] for some in steps], agents)
    if found is None:
        return None
    # (the inputs have the first numbers; of those that differ by rounding alone the first one is told)
    most = max(found[: len(starts)])
    worst = next(counts for i, counts in enumerate(starts.values()) if found[i] >= most * (1 - ROUNDING))
    return Longest(agents, worst, most)


def _solved(steps: Sequence[Sequence[tuple[int, float]]], agents: int) -> Sequence[float] | None:
    """The expected meetings from each crowd; None where some crowd never comes to rest, or numbers are too great."""
    import numpy as np
    from scipy import sparse
    from scipy.sparse.linalg import spsolve

    rows = [(i, j, -pairs) for i, some in enumerate(steps) for j, pairs in some]
    rows += [(i, i, sum(pairs for _, pairs in some) or 1.0) for i, some in enumerate(steps)]
    at, to, numbers = zip(*rows)
    matrix = sparse.csc_matrix((numbers, (at, to)), shape=(len(steps), len(steps)))
    right = np.array([float(agents * (agents - 1)) if some else 0.0 for some in steps])
    with np.errstate(all="ignore"):
        found = np.atleast_1d(spsolve(matrix, right))
    if not np.isfinite(found).all() or found.min() < -0.5 or found.max() > GREATEST:
        return None
    return [float(number) for number in found]
