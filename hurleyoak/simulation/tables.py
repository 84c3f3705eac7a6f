"""A net and its crowds as the kernel reads them: all words that can come up, and what each ordered pair becomes."""
from __future__ import annotations

from dataclasses import dataclass
from math import gcd, lcm
from typing import Iterator, Sequence

from ..faults import AskFault
from ..protocol.nets import Net
from ..protocol.reactions import Reactions, Word

WORD_LIMIT = 256  # of a table
SHARE_BITS = 34  # shares, weights and their scale have at most so many bits

Outcome = tuple[int, int, int]  # the two words that come of a meeting, by number, and the share


@dataclass(frozen=True)
class Meet:
    """An ordered pair of words that may change: the outcomes that do, and the share of all."""

    first: int
    second: int
    whole: int
    outcomes: tuple[Outcome, ...]

    @property
    def moving(self) -> int:
        """The share of the outcomes that change something."""
        return sum(share for _, _, share in self.outcomes)

    def line(self, scale: int) -> str:
        """The kernel's line; `scale` is the whole in which weights are counted."""
        weight = self.moving * scale // self.whole
        if self.moving == self.whole and len(self.outcomes) == 1:
            return f"meet {self.first} {self.second} {weight} {self.outcomes[0][0]} {self.outcomes[0][1]}"
        shares = " ".join(f"{a} {b} {share}" for a, b, share in self.outcomes)
        return f"coin {self.first} {self.second} {weight} {self.whole} {shares}"


@dataclass(frozen=True)
class Table:
    """The words by number, and the lines of the kernel's table."""

    words: tuple[Word, ...]
    lines: tuple[str, ...]

    def begin(self, counts: dict[Word, int]) -> str:
        """The lines of the table, and of the agents that begin with each word."""
        begun = (f"count {at} {counts[word]}" for at, word in enumerate(self.words) if counts.get(word))
        return "\n".join([*self.lines, *begun]) + "\n"


class _Closure:
    """The words that come of some, with their numbers."""

    def __init__(self, reactions: Reactions, start: Sequence[Word]) -> None:
        self.reactions = reactions
        self.words = list(start)
        self.numbers = {word: at for at, word in enumerate(self.words)}

    def number(self, word: Word) -> int:
        if word not in self.numbers:
            if len(self.words) == WORD_LIMIT:
                raise AskFault(f"the kernel runs protocols of at most {WORD_LIMIT} states; of this one more come up")
            self.numbers[word] = len(self.words)
            self.words.append(word)
        return self.numbers[word]

    def meet(self, i: int, j: int) -> Meet | None:
        """What the two become; None where nothing changes. To swap two states changes nothing."""
        options = self.reactions.options(self.words[i], self.words[j])
        made = [(self.number(a), self.number(b), share) for (a, b), share in options]
        outcomes = tuple((a, b, share) for a, b, share in made if {a, b} != {i, j} or (a == b) != (i == j))
        return Meet(i, j, sum(share for _, _, share in made), outcomes) if outcomes else None

    def meets(self) -> Iterator[Meet]:
        """All that can change anything."""
        at = 0
        while at < len(self.words):
            for i, j in [(at, k) for k in range(at + 1)] + [(k, at) for k in range(at)]:
                if found := self.meet(i, j):
                    yield found
            at += 1


def table_of(net: Net, start: Sequence[Word]) -> Table:
    """The table of a net for crowds that begin with these words; AskFault where it is too large for the kernel."""
    reactions = Reactions(net)
    closure = _Closure(reactions, start)
    meets = sorted(closure.meets(), key=lambda meet: (meet.first, meet.second))
    scale = lcm(*(meet.whole // gcd(meet.whole, meet.moving) for meet in meets))
    if max([scale, *(meet.whole for meet in meets)], default=1) >> SHARE_BITS:
        raise AskFault(f"the chances are fractions too long for the kernel, whose numbers have {SHARE_BITS} bits")
    outputs = [f"true {at}" for at, word in enumerate(closure.words) if reactions.output(word)]
    lines = [f"table {len(closure.words)} {scale}", *outputs, *(meet.line(scale) for meet in meets)]
    return Table(tuple(closure.words), tuple(lines))
