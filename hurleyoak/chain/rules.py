"""What a meeting adds to a crowd and how likely that is, in whole numbers; crowds are counts by word."""
from __future__ import annotations

from dataclasses import dataclass
from math import lcm
from typing import Iterable, Mapping, Sequence

import numpy as np
from numpy.typing import NDArray

from ..faults import InputFault
from ..protocol.nets import Net
from ..protocol.reactions import Reactions, Word

WORD_LIMIT = 200  # words that may come up

Counts = tuple[int, ...]
Change = tuple[tuple[int, int], ...]  # numbers of words, and what is added there
Integers = NDArray[np.int64]


@dataclass(frozen=True)
class Rule:
    """Words that meet, what their meeting adds, and its share of `whole`: the first one begins it or either does."""

    first: int
    second: int
    change: Change
    share: int


class Rules:
    """All that can happen among the words that come up from some words, whatever their counts."""

    def __init__(self, net: Net, start: Iterable[Word]) -> None:
        self.reactions = Reactions(net)
        self.words = sorted(set(start))
        self.numbers = {word: at for at, word in enumerate(self.words)}
        made = self._closed()
        self.outputs = [self.reactions.output(word) for word in self.words]
        self.whole = lcm(1, *(sum(share for _, share in options) for options in made.values()))
        shares: dict[tuple[int, int, Change], int] = {}
        for (i, j), options in made.items():
            unit = self.whole // sum(share for _, share in options)
            for both, share in options:
                change = self._change(i, j, both)
                if change:
                    key = (min(i, j), max(i, j), change)
                    shares[key] = shares.get(key, 0) + share * unit
        self.rules = [Rule(i, j, change, share) for (i, j, change), share in sorted(shares.items())]

    def _closed(self) -> dict[tuple[int, int], list[tuple[tuple[Word, Word], int]]]:
        """Adds the words that come up, and gives what each two of them become."""
        made: dict[tuple[int, int], list[tuple[tuple[Word, Word], int]]] = {}
        at = 0
        while at < len(self.words):
            for i, j in [(at, other) for other in range(at + 1)] + [(other, at) for other in range(at)]:
                options = self.reactions.options(self.words[i], self.words[j])
                if options:
                    made[i, j] = options
                for word in (word for both, _ in options for word in both):
                    if word not in self.numbers:
                        self.numbers[word] = len(self.words)
                        self.words.append(word)
            if len(self.words) > WORD_LIMIT:
                raise InputFault(
                    f"over {WORD_LIMIT} states of an agent can come up, too many for a chain; `simulate` runs the net"
                )
            at += 1
        return made

    def _change(self, i: int, j: int, both: tuple[Word, Word]) -> Change:
        """What a meeting adds to the counts."""
        added: dict[int, int] = {}
        for at, k in ((i, -1), (j, -1), (self.numbers[both[0]], 1), (self.numbers[both[1]], 1)):
            added[at] = added.get(at, 0) + k
        return tuple(sorted((at, k) for at, k in added.items() if k))

    def counts(self, crowd: Mapping[Word, int]) -> Counts:
        """A crowd by the numbers of its words."""
        return tuple(crowd.get(word, 0) for word in self.words)

    def named(self, counts: Sequence[int]) -> dict[str, int]:
        """A crowd by the names of its states."""
        by_word = sorted((word, int(k)) for word, k in zip(self.words, counts) if k)
        return {self.reactions.name(word): k for word, k in by_word}

    def changes(self) -> Integers:
        """What each rule adds, a row for each."""
        out = np.zeros((len(self.rules), len(self.words)), dtype=np.int64)
        for at, rule in enumerate(self.rules):
            for word, k in rule.change:
                out[at, word] = k
        return out
