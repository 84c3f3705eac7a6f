"""Runs a crowd by counts: uniform random pairs of agents, where only the meetings that change something cost time.

Where several moves are listed for two states, each is taken by its chance, an equal one if none is given, so that a
protocol may toss coins. Where moves have an order, the first agent of a pair begins the meeting.

Exact in distribution: pairs are chosen by whole numbers, and the meetings that change nothing are skipped by a
geometric draw, also exact (Gillespie's method in discrete time).
"""
from __future__ import annotations

from bisect import bisect_right
from dataclasses import dataclass
from enum import StrEnum
from itertools import accumulate
from operator import mul
from random import Random
from typing import Callable, Sequence

from ..protocol.nets import Net
from .geometric import skipped
from ..protocol.reactions import Reactions, Word

AGENT_LIMIT = 10**9
CHANGE_LIMIT = 10**7  # changes at most, where no other limit is given
BURST = 1 << 13  # changes between two looks at the clock
FREQUENT = 4  # one meeting in so many changes something: then meetings are drawn one by one
KEPT_WORDS = 64  # so many words keep what each meeting does to all weights
SETTLED_WORDS = 1_000  # with more words it isn't known whether outputs stay
ENDLESS = 1 << 200

Change = tuple[int, int]  # a number of a word, and what is added there


@dataclass(frozen=True)
class Step:
    """What a meeting adds to the counts, to the partner sums (None: not kept) and to the agents that output true."""

    counts: tuple[Change, ...]
    sums: tuple[Change, ...] | None
    yes: int


Steps = tuple[list[Step], list[int]]  # steps, and the sums of their shares up to each


class Stop(StrEnum):
    """Why a simulation stopped, or when it is to stop."""

    TERMINAL = "terminal"
    AGREED = "agreed"
    SETTLED = "settled"
    MEETINGS = "meetings"
    CHANGES = "changes"
    CONDITION = "condition"
    TIME = "time"
    INTERRUPTED = "interrupted"


TERMINAL, AGREED, SETTLED = Stop.TERMINAL, Stop.AGREED, Stop.SETTLED
MEETINGS, CHANGES, CONDITION, TIME = Stop.MEETINGS, Stop.CHANGES, Stop.CONDITION, Stop.TIME
INTERRUPTED = Stop.INTERRUPTED


class Simulation:
    """A crowd on its way.

    `meetings` and `changes` count those so far, `last_change` is the number of the meeting that last changed
    something. `since` is the number of the meeting since which all agents output the same, None where they don't.
    `ended` is None, or why it stopped.
    """

    by_counts = True  # whether agents in one word are alike
    told = "simulated"  # and by whom

    def __init__(self, net: Net, counts: Sequence[int], seed: int) -> None:
        self.reactions = Reactions(net)
        self.seed = seed
        self.random = Random(seed)
        start = self.reactions.start(counts)
        self.agents = sum(start.values())
        self.pairs = self.agents * (self.agents - 1)
        self.meetings = self.changes = self.last_change = 0
        self.ended: Stop | None = None
        self.settled: dict[frozenset[Word], bool] = {}
        self.words: list[Word] = []
        self._take(start)
        self.yes = sum(k for word, k in start.items() if self.reactions.output(word))
        self.since = 0 if self.yes in (0, self.agents) else None

    def put(self, net: Net, crowd: dict[Word, int]) -> None:
        """Goes on from another crowd, of a net with the same states."""
        before = self.output
        self.reactions = Reactions(net)
        self.settled = {}
        self.agents = sum(crowd.values())
        self.pairs = self.agents * (self.agents - 1)
        self._take(crowd)
        self.yes = sum(k for word, k in crowd.items() if self.reactions.output(word))
        if self.output is None or self.output != before:
            self.since = None if self.output is None else self.meetings
        self.ended = None

    def _take(self, crowd: dict[Word, int]) -> None:
        """Begins the tables anew with the words of a crowd."""
        self.words = []
        self.counts: list[int] = []
        self.numbers: dict[Word, int] = {}
        self.partners: list[list[int]] = []
        self.sums: list[int] = []
        self.steps: list[dict[int, Steps]] = []
        for word, k in crowd.items():
            self._add(word, k)
        self.room = max(KEPT_WORDS, 2 * len(self.words))

    def _add(self, word: Word, count: int) -> int:
        """A new word; in its row a word that reacts with itself stands last."""
        at = len(self.words)
        partners = []
        for i, other in enumerate(self.words):
            if self.reactions.reacts(other, word):
                partners.append(i)
                row = self.partners[i]
                row.insert(len(row) - (row[-1:] == [i]), at)
                self.sums[i] += count
        total = sum(self.counts[i] for i in partners)
        if self.reactions.reacts(word, word):
            partners.append(at)
            total += count - 1
        self.words.append(word)
        self.counts.append(count)
        self.numbers[word] = at
        self.partners.append(partners)
        self.sums.append(total)
        self.steps = [{} for _ in self.words]
        return at

    def number(self, word: Word) -> int:
        """The number of a word, which is new where nobody had it yet."""
        at = self.numbers.get(word)
        return self._add(word, 0) if at is None else at

    def sum_anew(self) -> None:
        """Makes the partner sums anew, after the counts were changed from outside."""
        self.sums = [sum(self.counts[j] for j in row) - (i in row) for i, row in enumerate(self.partners)]

    def crowd(self) -> dict[Word, int]:
        """How many agents have each word, in ascending order of words."""
        return {word: k for word, k in sorted(zip(self.words, self.counts)) if k}

    @property
    def is_terminal(self) -> bool:
        """Whether no meeting changes anything any more."""
        return not any(map(mul, self.counts, self.sums))

    @property
    def output(self) -> bool | None:
        """What all agents output; None where they don't agree."""
        return True if self.yes == self.agents else None if self.yes else False

    @property
    def is_settled(self) -> bool:
        """Whether all agents output the same, and so do all words that these ever become."""
        if self.output is None:
            return False
        words = frozenset(word for word, k in zip(self.words, self.counts) if k)
        if words not in self.settled:
            self.settled[words] = self._stays(words)
        return self.settled[words]

    def _stays(self, words: frozenset[Word]) -> bool:
        """Whether words that output the same become only such words; false where there are too many to say."""
        seen, todo, output = set(words), list(words), self.output
        while todo:
            if len(seen) > SETTLED_WORDS:
                return False
            one = todo.pop()
            for made in [made for other in list(seen) for made in self.reactions.both_ways(one, other)]:
                if self.reactions.output(made) != output:
                    return False
                if made not in seen:
                    seen.add(made)
                    todo.append(made)
        return True

    def _steps(self, i: int, j: int) -> Steps:
        """The steps of an agent in word i that begins a meeting with one in word j."""
        options = self.reactions.options(self.words[i], self.words[j]) or [((self.words[i], self.words[j]), 1)]
        for word in (word for made, _ in options for word in made):
            if word not in self.numbers:
                self._add(word, 0)
        made_steps = [self._step(i, j, made) for made, _ in options], list(accumulate(share for _, share in options))
        self.steps[i][j] = made_steps
        return made_steps

    def _step(self, i: int, j: int, made: tuple[Word, Word]) -> Step:
        """The step by which they become these words."""
        changes: dict[int, int] = {}
        for word, k in ((self.words[i], -1), (self.words[j], -1), (made[0], 1), (made[1], 1)):
            at = self.numbers[word]
            changes[at] = changes.get(at, 0) + k
        counts = tuple((at, k) for at, k in changes.items() if k)
        sums: dict[int, int] = {}
        if len(self.words) <= KEPT_WORDS:
            for at, k in counts:
                for row in self.partners[at]:
                    sums[row] = sums.get(row, 0) + k
        yes = sum(k for at, k in counts if self.reactions.output(self.words[at]))
        return Step(
            counts, tuple((row, k) for row, k in sums.items() if k) if len(self.words) <= KEPT_WORDS else None, yes
        )

    def _sums(self, step: Step) -> list[Change]:
        """What a step adds to the partner sums, where it doesn't keep that."""
        return [(row, k) for at, k in step.counts for row in self.partners[at]]

    def _chosen(self, i: int, within: int) -> Step:
        """The step of an agent in word i with the partner of this number."""
        counts = self.counts
        for j in self.partners[i]:
            within -= counts[j]
            if within < 0:
                break
        steps, bounds = self.steps[i].get(j) or self._steps(i, j)
        return steps[0] if len(steps) == 1 else steps[bisect_right(bounds, self.random.randrange(bounds[-1]))]

    def _drawn(self, total: int) -> int:
        """Goes on to the next meeting that changes something; the number of its pair, below `total`."""
        bits, pairs = self.random.getrandbits, self.pairs
        size = pairs.bit_length()
        if total * FREQUENT >= pairs:
            drawn = bits(size)
            while drawn >= total:
                self.meetings += drawn < pairs
                drawn = bits(size)
        else:
            self.meetings += skipped(total, pairs, bits)
            size = total.bit_length()
            drawn = bits(size)
            while drawn >= total:
                drawn = bits(size)
        self.meetings += 1
        return drawn

    def _told(self, step: Step, on_change: Callable[[], None] | None) -> None:
        """Notes whether all agents output the same now."""
        if step.yes:
            self.yes += step.yes
            self.since = self.meetings if self.yes in (0, self.agents) else None
        if on_change:
            on_change()

    def burst(
        self,
        changes: int,
        meetings: int = ENDLESS,
        agreed: Sequence[int] = (),
        on_change: Callable[[], None] | None = None,
    ) -> None:
        """Goes on by so many changes at most, and to so many meetings in all.

        It ends earlier where the crowd is terminal, or where the number of agents that output true is one of `agreed`.
        """
        for _ in range(changes):
            if self.yes in agreed:
                self.ended = AGREED
                return
            if len(self.words) > self.room:
                self._take(self.crowd())
            counts, sums = self.counts, self.sums
            rows = list(accumulate(map(mul, counts, sums)))
            total = rows[-1]
            if not total:
                self.ended = TERMINAL
                return
            drawn = self._drawn(total)
            if self.meetings > meetings:
                self.meetings, self.ended = meetings, MEETINGS
                return
            i = bisect_right(rows, drawn)
            step = self._chosen(i, (drawn - (rows[i - 1] if i else 0)) // counts[i])
            if not step.counts:
                continue
            for at, k in step.counts:
                counts[at] += k
            for at, k in self._sums(step) if step.sums is None else step.sums:
                sums[at] += k
            self.changes += 1
            self.last_change = self.meetings
            self._told(step, on_change)
