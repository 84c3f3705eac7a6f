"""Runs a crowd by batches of meetings, for crowds so large that nearly each meeting is of agents who haven't met
before.

A batch is a run of meetings in which no agent takes part twice (Berenbrink, Hammer, Kaaser, Meyer, Penschuck, Tran
2020). How long it is depends on the number of agents alone. Its first agents and its second agents are drawn without
order, by hypergeometric draws, and so are the pairs that they make; coins are tossed by multinomial draws. Then comes
the meeting that ends the batch, of one or two agents who took part in it.

Exact but for the floats in numpy's draws and in the lengths' distribution: each is right to some 15 digits. The place
of the last change in a batch, and the moment since which all agents agree, are drawn from the batch's own order.
"""
from __future__ import annotations

from dataclasses import dataclass, field
from math import sqrt
from typing import Callable, Sequence

import numpy as np

from .simulation import ENDLESS, KEPT_WORDS, MEETINGS, Simulation

WORD_LIMIT = KEPT_WORDS  # words that can come up at most; with more each meeting is drawn by itself
LENGTHS = 8  # a batch is shorter than so many times the root of the number of agents
DRAW_LIMIT = 10**9  # numbers from here on are refused by numpy's hypergeometric draws
CHANGE_COST, BATCH_COST, DRAW_COST = 3.0, 20.0, 2.5  # microseconds: a change by itself, a batch, a draw in it
RESOLUTION = 200  # where a curve is kept, a batch is at most 1/200 of the meetings so far
SHORTEST = 64
BATCHES = 512  # between two looks at the clock
LOOK = 16  # between two looks at whether batches pay

Outcome = tuple[int, int]


@dataclass
class Part:
    """Meetings without order: a batch, or the one that ended it.

    `first` is the number of meetings before them; `changes` of them changed something; `steps` says what they added to
    the agents that output true, and how often.
    """

    first: int
    length: int
    changes: int = 0
    steps: list[tuple[int, int]] = field(default_factory=list)
    last: int | None = None  # the number of the last meeting that changed something, once it is drawn


class Batcher:
    """Draws batches for a simulation. `ready` says whether it can: there may be too many words."""

    def __init__(self, run: Simulation) -> None:
        self.run = run
        self.generator = np.random.Generator(np.random.PCG64([run.seed, run.agents]))
        self.outcomes: dict[tuple[int, int], list[Outcome]] = {}
        self.chances: dict[tuple[int, int], list[float]] = {}
        self.ready = self._close()
        if not self.ready:
            return
        self.lasting = _lasting(run.agents)
        self.outputs = [run.reactions.output(word) for word in run.words]
        self.partners: list[list[int]] = [[] for _ in run.words]
        self.reacts = np.zeros((len(run.words), len(run.words)))
        for i, j in self.outcomes:
            self.reacts[i, j] = 1.0
            self.partners[i].append(j)
        self.lonely = np.diag(self.reacts).copy()

    def _close(self) -> bool:
        """Gives the simulation all words that can come up, and notes what they become; false where there are too
        many."""
        run = self.run
        at = 0
        while at < len(run.words):
            for i, j in [(at, other) for other in range(at + 1)] + [(other, at) for other in range(at)]:
                made = run.reactions.options(run.words[i], run.words[j])
                if made:
                    self.outcomes[i, j] = [(run.number(a), run.number(b)) for (a, b), _ in made]
                    total = sum(share for _, share in made)
                    self.chances[i, j] = [share / total for _, share in made]
                if len(run.words) > WORD_LIMIT:
                    return False
            at += 1
        return True

    def share(self) -> float:
        """Which share of all pairs changes something."""
        counts = np.array(self.run.counts, dtype=float)
        return float(counts @ self.reacts @ counts - self.lonely @ counts) / self.run.pairs

    def pays(self, most: int) -> bool:
        """Whether a batch of at most so many meetings is faster than its changes drawn one by one."""
        there = [i for i, k in enumerate(self.run.counts) if k]
        draws = 2 * len(there) + sum(min(len(there), len(self.partners[i])) for i in there)
        length = min(most, sqrt(self.run.agents) / 2)
        return length * self.share() * CHANGE_COST > BATCH_COST + DRAW_COST * draws

    def burst(
        self,
        changes: int,
        meetings: int = ENDLESS,
        agreed: Sequence[int] = (),
        on_change: Callable[[], None] | None = None,
    ) -> bool:
        """Goes on by batches as long as they pay, by so many changes and to so many meetings at most.

        False where none was made: then `burst` of the simulation is faster, or one of `agreed` too near for a batch.
        """
        run, goal, latest, number = self.run, self.run.changes + changes, None, 0
        for number in range(BATCHES):
            most = min(goal - run.changes - 1, meetings - run.meetings, len(self.lasting))
            if on_change:
                most = min(most, max(SHORTEST, run.meetings // RESOLUTION))
            near = any(abs(run.yes - yes) <= 2 * (most + 1) for yes in agreed)
            if most < SHORTEST or near or (number % LOOK == 0 and not self.pays(most)):
                break
            latest = self._batch(most) or latest
            if on_change:
                on_change()
        if latest is not None:
            run.last_change = self._last_of(latest)
        if number:
            run.sum_anew()
        if run.meetings == meetings:
            run.ended = MEETINGS
        return number > 0

    def _batch(self, most: int) -> Part | None:
        """Goes on by a batch of at most so many meetings; the last part of it that changed something."""
        run, latest = self.run, None
        for part in self._parts(most):
            run.changes += part.changes
            run.meetings += part.length
            if part.changes:
                latest = part
            if part.steps:
                run.yes += sum(by * times for by, times in part.steps)
                run.since = self._last_step_of(part) if run.yes in (0, run.agents) else None
        return latest

    def _parts(self, most: int) -> list[Part]:
        """The meetings of a batch, and the one that ends it unless the batch is cut; the counts are those behind
        them."""
        run = self.run
        length = self._length()
        is_cut = length >= most
        batch = Part(run.meetings, min(length, most))
        firsts, left = self._drawn(run.counts, batch.length)
        seconds, left = self._drawn(left, batch.length)
        used = [0] * len(left)
        self._pairs(firsts, seconds, used, batch)
        parts = [batch]
        if not is_cut:
            parts.append(Part(run.meetings + batch.length, 1))
            self._collide(left, used, parts[1])
        run.counts[:] = [k + now for k, now in zip(left, used)]
        return parts

    def _length(self) -> int:
        """How many meetings go by before an agent takes part twice."""
        return int(self.lasting.searchsorted(-self.generator.random(), side="left")) - 1

    def _pairs(self, firsts: list[int], seconds: list[int], used: list[int], batch: Part) -> None:
        """Who meets whom: the second agents are dealt out to the first ones, to those that react before the others."""
        waiting = [i for i, k in enumerate(firsts) if k]
        for i in waiting:
            if not self.partners[i]:
                used[i] += firsts[i]
                continue
            row, seconds = self._drawn(seconds, firsts[i])
            for j, k in enumerate(row):
                if k:
                    self._meet(i, j, k, used, batch)
        for j, k in enumerate(seconds):
            used[j] += k

    def _meet(self, i: int, j: int, times: int, used: list[int], part: Part) -> None:
        """So many meetings of words i and j: what they become goes to `used`."""
        made = self.outcomes.get((i, j))
        if made is None:
            used[i] += times
            used[j] += times
            return
        part.changes += times
        shares = [times] if len(made) == 1 else self.generator.multinomial(times, self.chances[i, j]).tolist()
        was = self.outputs[i] + self.outputs[j]
        for (a, b), k in zip(made, shares):
            used[a] += k
            used[b] += k
            if (a, b) == (i, j):
                part.changes -= k  # nothing happened
            by = self.outputs[a] + self.outputs[b] - was
            if by and k:
                part.steps.append((by, k))

    def _collide(self, fresh: list[int], used: list[int], part: Part) -> None:
        """The meeting that ends a batch: of two who took part in it, or of one who did and one who did not."""
        met, others = sum(used), sum(fresh)
        at = int(self.generator.integers(met * (met - 1) + 2 * met * others))
        if at < met * (met - 1):
            i, j = self._one(used), self._one(used)
        elif at < met * (met - 1) + met * others:
            i, j = self._one(used), self._one(fresh)
        else:
            i, j = self._one(fresh), self._one(used)
        self._meet(i, j, 1, used, part)

    # draws

    def _one(self, counts: list[int]) -> int:
        """One agent of a crowd, taken out of it."""
        at = int(self.generator.integers(sum(counts)))
        for i, k in enumerate(counts):
            if at < k:
                counts[i] -= 1
                return i
            at -= k
        raise AssertionError("nobody is there")

    def _drawn(self, counts: Sequence[int], sample: int) -> tuple[list[int], list[int]]:
        """A sample without order, and what is left."""
        taken = [0] * len(counts)
        behind = sum(counts)
        for i, k in enumerate(counts):
            if not sample:
                break
            if k:
                behind -= k
                taken[i] = self._good(k, behind, sample)
                sample -= taken[i]
        return taken, [k - some for k, some in zip(counts, taken)]

    def _good(self, good: int, bad: int, sample: int) -> int:
        """How many good ones are in a sample. Where there are more bad ones than numpy takes, the crowd is cut in
        halves."""
        if not good or not sample:
            return 0
        if not bad:
            return sample
        if good >= DRAW_LIMIT:
            return sample - self._good(bad, good, sample)
        if bad >= DRAW_LIMIT:
            half = (good + bad) // 2  # the crowd in two halves, the good ones in one of them
            assert good <= half, "a crowd has at most twice as many agents as numpy takes"
            other = int(self.generator.hypergeometric(half, good + bad - half, sample))
            return self._good(good, half - good, other)
        return int(self.generator.hypergeometric(good, bad, sample))

    def _last_of(self, part: Part) -> int:
        """The number of the last meeting that changed something: any order of the meetings is as likely."""
        if part.last is None:
            part.last = part.first + 1 + int(self._places(part).max())
        return part.last

    def _last_step_of(self, part: Part) -> int:
        """The number of the last meeting that changed how many output true."""
        places = self._places(part)
        part.last = part.first + 1 + int(places.max())
        return part.first + 1 + int(places[: sum(times for _, times in part.steps)].max())

    def _places(self, part: Part) -> np.ndarray[tuple[int], np.dtype[np.int64]]:
        """Where the meetings that changed something stand in their order."""
        return self.generator.choice(part.length, part.changes, replace=False)


def _lasting(agents: int) -> np.ndarray[tuple[int], np.dtype[np.float64]]:
    """The probability that the first k meetings are of 2k different agents, for k from 0 on; negative, so that it
    ascends."""
    most = min(agents // 2, int(LENGTHS * sqrt(agents)))
    left = agents - 2.0 * np.arange(most)
    logs = np.log(left) + np.log(left - 1) - np.log(float(agents)) - np.log(agents - 1.0)
    lasting: np.ndarray[tuple[int], np.dtype[np.float64]] = -np.concatenate([[1.0], np.exp(np.cumsum(logs))])
    return lasting
