"""A whole net as one protocol: its agents' words are the states, and its output is the combination's.

Of a net with several leaves the words and their moves are made as they are met, since all of them would be too many.
"""
from __future__ import annotations

from dataclasses import replace
from typing import Iterator, Union

from ..protocol.nets import Leaf, Move, Net, combined, pair

Word = tuple[int, ...]
Crowd = tuple[int, ...]
Options = list[tuple[int, int]]


class Words:
    """The words of a net with several leaves, and their moves. These are moves of one leaf alone, as the model has
    them, and meetings, in which each leaf takes its first move. A crowd has a count for each word so far, and no zeros
    at its end.
    """

    def __init__(self, net: Net) -> None:
        self.net = net
        self.words: list[Word] = []
        self.outputs: list[bool] = []
        self.moves: list[Move] = []
        self.meetings: set[int] = set()
        self._numbers: dict[Word, int] = {}
        self._table: dict[tuple[int, int], list[int]] = {}
        self._options = [_options(leaf) for leaf in net.leaves]
        self.inputs = tuple(self.number(tuple(leaf.inputs[i] for leaf in net.leaves)) for i in range(len(net.names)))
        self.helpers = tuple(self.number(word) for word in zip(*(leaf.helpers for leaf in net.leaves)))

    @property
    def active(self) -> range:
        """The numbers of the moves."""
        return range(len(self.moves))

    def number(self, word: Word) -> int:
        """A word's number."""
        known = self._numbers.setdefault(word, len(self.words))
        if known == len(self.words):
            self.words.append(word)
            self.outputs.append(
                combined(self.net.combine, [leaf.outputs[q] for leaf, q in zip(self.net.leaves, word)])
            )
        return known

    def start(self, counts: tuple[int, ...]) -> Crowd:
        """The crowd of an input."""
        out = [0] * len(self.words)
        for word, k in [*zip(self.inputs, counts), *((word, 1) for word in self.helpers)]:
            out[word] += k
        return _trimmed(out)

    def steps(self, crowd: Crowd) -> Iterator[tuple[int, Crowd]]:
        """The moves that a crowd allows, with the crowds behind them."""
        here = [q for q, k in enumerate(crowd) if k]
        for i, p in enumerate(here):
            for q in here[i:]:
                if p == q and crowd[p] < 2:
                    continue
                for t in self.of(p, q):
                    new = list(crowd) + [0] * (len(self.words) - len(crowd))
                    a, b, r, s = self.moves[t]
                    new[a] -= 1
                    new[b] -= 1
                    new[r] += 1
                    new[s] += 1
                    yield t, _trimmed(new)

    def of(self, p: int, q: int) -> list[int]:
        """The moves for two words."""
        known = self._table.get((p, q))
        if known is None:
            made: dict[tuple[int, int], int] = {}
            for is_meeting in (True, False):
                for first, second in ((p, q), (q, p)):
                    for r, s in self._made(first, second, is_meeting):
                        if made.setdefault(pair(r, s), len(self.moves)) == len(self.moves):
                            self.moves.append((first, second, r, s))
                            if is_meeting:
                                self.meetings.add(len(self.moves) - 1)
            known = self._table[p, q] = list(made.values())
        return known

    def _made(self, p: int, q: int, is_meeting: bool) -> Iterator[tuple[int, int]]:
        """What two agents in these words become by a meeting, in which the first is the first in each leaf, or by a
        move of one leaf."""
        one, two = self.words[p], self.words[q]
        options = [table.get(states, []) for table, states in zip(self._options, zip(one, two))]
        stay = list(zip(one, two))
        if is_meeting:
            made = [[some[0] if some else states for some, states in zip(options, stay)]] if any(options) else []
        else:
            made = [[*stay[:i], changed, *stay[i + 1 :]] for i, some in enumerate(options) for changed in some]
        for both in made:
            yield self.number(tuple(a for a, _ in both)), self.number(tuple(b for _, b in both))

    def leaf(self) -> Leaf:
        """The words and moves so far as a leaf, for names."""
        names = tuple("/".join(leaf.states[q] for leaf, q in zip(self.net.leaves, word)) for word in self.words)
        return Leaf(names, tuple(self.moves), self.inputs, tuple(self.outputs), self.helpers)


System = Union[Leaf, Words]


def _trimmed(counts: list[int]) -> Crowd:
    while counts and not counts[-1]:
        counts.pop()
    return tuple(counts)


def _options(leaf: Leaf) -> dict[tuple[int, int], Options]:
    """What two states become, the first one's first, by each move for them."""
    out: dict[tuple[int, int], Options] = {}
    for t in leaf.active:
        p, q, r, s = leaf.moves[t]
        out.setdefault((p, q), []).append((r, s))
        if p != q:
            out.setdefault((q, p), []).append((s, r))
    return out


def system_of(net: Net) -> System:
    """What is explored of a net: its leaf with the net's outputs, or its words."""
    if len(net.leaves) > 1:
        return Words(net)
    leaf = net.leaves[0]
    return replace(leaf, outputs=tuple(combined(net.combine, [b]) for b in leaf.outputs))


def words_of(system: System) -> list[Word]:
    """The word of each state."""
    return list(system.words) if isinstance(system, Words) else [(q,) for q in range(len(system.states))]


def shown_leaf(system: System) -> Leaf:
    """A leaf that has the names of what is explored."""
    return system.leaf() if isinstance(system, Words) else system
