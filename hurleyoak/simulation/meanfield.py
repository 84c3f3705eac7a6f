"""The mean field: the equations that shares of agents follow in a crowd without bound, solved by SciPy.

In meetings per agent, an agent in p begins a meeting with one in q by the product of their shares. A network in a
volume has the rates of its own time: of two agents the rate times their counts divided by the volume.
"""
from __future__ import annotations

from dataclasses import dataclass
from fractions import Fraction
from typing import Any, Sequence

from ..faults import InputFault
from ..protocol.nets import Net
from ..protocol.reactions import Reactions, Word
from ..text.loaded import Loaded
from ..text.networks import MEETING, Network
from .events import Crowd, word_of
from .timeline import Pace

WORD_LIMIT = 500
TOLERANCE = 1e-9

Term = tuple[int, int, float, dict[int, int]]  # two words (the second -1 for one alone), a rate, and what they add


@dataclass(frozen=True)
class Course:
    """The agents in each word at some times, and what the words output."""

    names: list[str]
    outputs: list[bool]
    times: list[float]
    rows: list[list[float]]
    unit: str
    agents: int

    def of(self, name: str) -> list[float]:
        """The agents in one word, none where nobody comes to it."""
        at = self.names.index(name) if name in self.names else None
        return [0.0 if at is None else row[at] for row in self.rows]


def _net_terms(reactions: Reactions, words: list[Word], agents: int) -> list[Term]:
    """The terms of a net; words that come up are added."""
    terms: list[Term] = []
    seen = 0
    while seen < len(words):
        seen += 1
        for i in range(seen):
            for p, q in {(i, seen - 1), (seen - 1, i)}:
                terms += _terms(reactions, words, p, q, agents)
    return terms


def _terms(reactions: Reactions, words: list[Word], p: int, q: int, agents: int) -> list[Term]:
    options = reactions.options(words[p], words[q])
    whole = sum(share for _, share in options)
    terms = []
    for made, share in options:
        for word in made:
            if word not in words:
                words.append(word)
            if len(words) > WORD_LIMIT:
                raise InputFault(f"the mean field has over {WORD_LIMIT} equations")
        change: dict[int, int] = {}
        for at, k in ((p, -1), (q, -1), (words.index(made[0]), 1), (words.index(made[1]), 1)):
            change[at] = change.get(at, 0) + k
        if any(change.values()):
            terms.append((p, q, share / whole / agents, change))
    return terms


def _network_terms(net: Net, network: Network, words: list[Word], volume: Fraction) -> list[Term]:
    """The terms of a network in its own time."""
    words += [word_of(net, name) for name in network.species if word_of(net, name) not in words]
    terms: list[Term] = []
    for one in network.reactions:
        before, after = ([words.index(word_of(net, name)) for name in side] for side in (one.before, one.after))
        change: dict[int, int] = {}
        for at, k in [*((at, -1) for at in before), *((at, 1) for at in after)]:
            change[at] = change.get(at, 0) + k
        if len(before) == MEETING:
            rate = one.rate / volume / (2 if before[0] == before[1] else 1)
            terms.append((before[0], before[1], float(rate), change))
        else:
            terms.append((before[0], -1, float(one.rate), change))
    return terms


def course(loaded: Loaded, start: Crowd, times: Sequence[float], volume: Fraction | None = None) -> Course:
    """The mean field of a net from a crowd on; of a network in its own time, in a volume or the agents less one."""
    needs_scipy()
    import numpy as np

    words, agents, reactions = list(start), sum(start.values()), Reactions(loaded.net)
    network = loaded.network
    pace = Pace(network, volume or Fraction(agents - 1)) if network else Pace(None, None)
    if network is not None and pace.volume is not None:
        terms = _network_terms(loaded.net, network, words, pace.volume)
    else:
        terms = _net_terms(reactions, words, agents)
    first = [start.get(word, 0) for word in words]
    rows = _solved(terms, np.array(first, dtype=float), times) if terms else [list(map(float, first)) for _ in times]
    names, outputs = [reactions.name(word) for word in words], [reactions.output(word) for word in words]
    return Course(names, outputs, list(times), rows, pace.unit, agents)


def needs_scipy() -> None:
    """InputFault where SciPy isn't installed."""
    try:
        import scipy.integrate  # noqa: F401
    except ImportError:
        raise InputFault("the mean field needs SciPy: apt-get install python3-scipy") from None


def _solved(terms: Sequence[Term], first: Any, times: Sequence[float]) -> list[list[float]]:
    import numpy as np
    from scipy import sparse
    from scipy.integrate import solve_ivp

    ones, twos = np.array([term[0] for term in terms]), np.array([term[1] for term in terms])
    rates, is_pair = np.array([term[2] for term in terms]), twos >= 0
    found = [(at, number, k) for number, term in enumerate(terms) for at, k in term[3].items() if k]
    at, numbers, parts = zip(*found)
    change = sparse.csr_matrix((parts, (at, numbers)), shape=(len(first), len(terms)))

    def slope(_time: float, counts: Any) -> Any:
        return change @ (rates * counts[ones] * np.where(is_pair, counts[twos], 1.0))

    limits = (min(times), max(max(times), min(times) + TOLERANCE))
    size = float(first.sum())
    made = solve_ivp(
        slope, limits, first, method="LSODA", t_eval=times, rtol=TOLERANCE, atol=TOLERANCE * max(1.0, size)
    )
    if not made.success:
        raise InputFault(f"SciPy's solver stopped: {made.message}")
    rows: list[list[float]] = np.maximum(made.y.T, 0.0).tolist()
    return rows
