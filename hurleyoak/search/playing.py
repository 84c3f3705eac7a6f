"""From a flaw of a net to an input of `play`, and what the proved program played."""
from __future__ import annotations

from dataclasses import dataclass
from heapq import heappop, heappush

from ..engine import program
from ..proof.names import Names
from ..protocol.nets import Net, combined, compact, pair
from .explore import first_moves
from .flaws import WRONG, Flaw
from .whole import Word


@dataclass(kw_only=True)
class Played:
    """Meetings that lead to the flaw, and what `play` said of them. `moves` names the move of each meeting."""

    text: str
    meetings: list[tuple[int, int]]
    moves: list[str]
    printed: list[str]
    is_as_told: bool
    wrong: list[str]


class _Agents:
    """The agents of a net: one list of states for each leaf."""

    def __init__(self, net: Net, counts: tuple[int, ...]) -> None:
        self.net = net
        starts = [i for i, k in enumerate(counts) for _ in range(k)]
        self.states = [[leaf.inputs[i] for i in starts] + list(leaf.helpers) for leaf in net.leaves]
        self.first = [{pair(*leaf.moves[t][:2]): t for t in first_moves(leaf)} for leaf in net.leaves]
        self.count = len(self.states[0])
        # (the agents with each word; some are there no longer, or twice)
        self.where: dict[Word, list[int]] = {}
        for agent in range(self.count):
            self.where.setdefault(self.word(agent), []).append(agent)

    def word(self, agent: int) -> Word:
        """The states of an agent, one for each leaf."""
        return tuple(states[agent] for states in self.states)

    def meet(self, a: int, b: int) -> bool:
        """Two agents meet: each leaf takes its first move for them. Whether that changed something."""
        changed = False
        for leaf, states, first in zip(self.net.leaves, self.states, self.first):
            t = first.get(pair(states[a], states[b]))
            if t is None:
                continue
            p, _, r, s = leaf.moves[t]
            states[a], states[b] = (r, s) if states[a] == p else (s, r)
            changed = True
        for agent in (a, b):
            heappush(self.where.setdefault(self.word(agent), []), agent)
        return changed

    def two_in(self, first: Word, second: Word) -> tuple[int, int]:
        """The first two agents with these words."""
        a = self._first(first)
        if first != second:
            return a, self._first(second)
        heap = self.where[first]
        while heap[0] == a:
            heappop(heap)
        b = self._first(second)
        heappush(heap, a)
        return a, b

    def _first(self, word: Word) -> int:
        """The first agent with a word."""
        heap = self.where[word]
        while self.word(heap[0]) != word:
            heappop(heap)
        return heap[0]

    def lines(self) -> list[str]:
        """The crowd as `play` prints it."""
        tuples: dict[tuple[int, ...], int] = {}
        for one in zip(*self.states):
            tuples[one] = tuples.get(one, 0) + 1
        return [
            "/".join(leaf.states[q] for leaf, q in zip(self.net.leaves, one)) + f" {k}"
            for one, k in sorted(tuples.items())
        ]

    def wrong(self, want: bool) -> list[str]:
        """The tuples of states whose output isn't this value."""
        out: list[str] = []
        for one in sorted(set(zip(*self.states))):
            if combined(self.net.combine, [leaf.outputs[q] for leaf, q in zip(self.net.leaves, one)]) != want:
                out.append("/".join(leaf.states[q] for leaf, q in zip(self.net.leaves, one)))
        return out


def crowd_line(names: tuple[str, ...], counts: tuple[int, ...]) -> str:
    """The crowd line of an input."""
    return " ".join(["crowd", *(f"{name}={k}" for name, k in zip(names, counts) if k)])


def play(net: Net, flaw: Flaw, want: bool) -> Played:
    """Plays the way to a flaw of the net by the proved program; the flaw has to be one that meetings lead to."""
    assert flaw.leaf is not None
    names = Names(net.names, flaw.leaf)
    agents = _Agents(net, flaw.counts)
    meetings: list[tuple[int, int]] = []
    moves: list[str] = []
    for t in flaw.moves:
        p, q = flaw.leaf.moves[t][:2]
        a, b = agents.two_in(flaw.words[p], flaw.words[q])
        agents.meet(a, b)
        meetings.append((a, b))
        moves.append(names.move(t))
    text = (
        "\n".join([compact(net.value()), crowd_line(net.names, flaw.counts), *(f"{a} {b}" for a, b in meetings)])
        + "\n"
    )
    answer = program.ask(["play"], text)
    printed = answer.text.splitlines()
    last = printed[-1] if printed else ""
    is_ended = last == "terminal" if flaw.kind == WRONG else last.startswith("enabled")
    wrong = agents.wrong(want)
    is_as_told = (
        answer.status == 0 and printed[:-1] == agents.lines() and is_ended and (flaw.kind != WRONG or bool(wrong))
    )
    return Played(text=text, meetings=meetings, moves=moves, printed=printed, is_as_told=is_as_told, wrong=wrong)
