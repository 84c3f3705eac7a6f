"""All crowds that come up from some, and the steps between them: found as arrays, and counted while they are found."""
from __future__ import annotations

from typing import Callable, Sequence

import numpy as np
from numpy.typing import NDArray

from .rules import Counts, Integers, Rules

CROWD_LIMIT = 400_000
STEP_LIMIT = 6_000_000
COUNT_LIMIT = 20_000_000  # counts of all crowds together
CELLS = 4_000_000  # crowds times rules that are looked at in one go
KEY_BITS = 63
SEED = 1

Keys = NDArray[np.uint64]


class TooLarge(Exception):
    """More crowds come up than there is room for, or more steps between them."""


class Space:
    """The crowds, a row for each in the order in which they come up; step k leads from `source[k]` to `target[k]` by
    `rule[k]`.

    A crowd's key is its counts as one number where that has room, or a sum by chance numbers. Then each step is
    compared with the crowd that it leads to, so that no two crowds pass for one.
    """

    def __init__(
        self,
        rules: Rules,
        starts: Sequence[Counts],
        crowd_limit: int = CROWD_LIMIT,
        each: Callable[[int], None] = lambda found: None,
    ) -> None:
        self.rules = rules
        self.agents = sum(starts[0])
        self.first = np.array([rule.first for rule in rules.rules], dtype=np.int64)
        self.second = np.array([rule.second for rule in rules.rules], dtype=np.int64)
        self.needs = (self.first == self.second).astype(np.int64)
        self.change = rules.changes()
        words, base = len(rules.words), self.agents + 1
        self.is_plain = base**words < 1 << KEY_BITS
        plain = [base**at if self.is_plain else 0 for at in range(words)]
        chance = np.random.default_rng(SEED).integers(1 << KEY_BITS, size=words, dtype=np.uint64)
        self.weights: Keys = np.array(plain, dtype=np.uint64) if self.is_plain else chance
        self.crowds: Integers = np.array(sorted(set(starts)), dtype=np.int64)
        self.source = self.target = self.rule = np.zeros(0, dtype=np.int64)
        self._find(min(crowd_limit, COUNT_LIMIT // words), each)
        if not self.is_plain:
            self._compare()
        keys = self.keys(self.crowds)
        self._order = np.argsort(keys)
        self._sorted = keys[self._order]

    def __len__(self) -> int:
        return len(self.crowds)

    def keys(self, crowds: Integers) -> Keys:
        """A number for each crowd."""
        found: Keys = crowds.astype(np.uint64) @ self.weights
        return found

    def _find(self, limit: int, each: Callable[[int], None]) -> None:
        """Finds all crowds, those that are one step farther each time."""
        shifts = self.change.astype(np.uint64) @ self.weights
        blocks, steps = [self.crowds], []
        keys = self.keys(self.crowds)
        order = np.argsort(keys)
        known, places = keys[order], order.astype(np.int64)
        total, taken, begun, at = len(self.crowds), 0, 0, 0
        size = max(1, CELLS // max(1, len(self.first)))
        while at < len(blocks):
            for low in range(0, len(blocks[at]), size):
                here = blocks[at][low : low + size]
                rows, kinds = np.nonzero((here[:, self.first] > self.needs) & (here[:, self.second] > 0))
                unique, once, back = np.unique(
                    self.keys(here)[rows] + shifts[kinds], return_index=True, return_inverse=True
                )
                near = np.minimum(np.searchsorted(known, unique), len(known) - 1)
                ids = np.where(known[near] == unique, places[near], -1)
                new = np.nonzero(ids < 0)[0]
                ids[new] = total + np.arange(len(new))
                steps.append((rows + begun + low, ids[back], kinds))
                total, taken = total + len(new), taken + len(rows)
                if total > limit or taken > STEP_LIMIT:
                    raise TooLarge
                if len(new):
                    blocks.append(here[rows[once[new]]] + self.change[kinds[once[new]]])
                    spots = np.searchsorted(known, unique[new])
                    known, places = np.insert(known, spots, unique[new]), np.insert(places, spots, ids[new])
                each(total)
            begun += len(blocks[at])
            at += 1
        self.crowds = np.concatenate(blocks)
        self.source, self.target, self.rule = (np.concatenate([step[part] for step in steps]) for part in range(3))

    def _compare(self) -> None:
        """AssertionError where two crowds have one key, which happens once in many thousand million spaces."""
        size = max(1, CELLS // max(1, self.change.shape[1]))
        for low in range(0, len(self.source), size):
            part = slice(low, low + size)
            made = self.crowds[self.source[part]] + self.change[self.rule[part]]
            assert np.array_equal(made, self.crowds[self.target[part]]), "two crowds have one key"

    def number(self, counts: Counts) -> int:
        """The number of a crowd that is there."""
        key = self.keys(np.array([counts], dtype=np.int64))[0]
        return int(self._order[np.searchsorted(self._sorted, key)])

    @property
    def scale(self) -> int:
        """What the weights of all steps of a crowd add up to, with those that change nothing."""
        return self.rules.whole * self.agents * (self.agents - 1)

    def weight(self) -> NDArray[np.float64]:
        """The weight of each step: its chance times `scale`."""
        share = np.array([float(rule.share) for rule in self.rules.rules])
        one = self.crowds[self.source, self.first[self.rule]]
        two = self.crowds[self.source, self.second[self.rule]] - self.needs[self.rule]
        made: NDArray[np.float64] = share[self.rule] * one * two
        return made

    def exact_weight(self, step: int) -> int:
        """The same of one step, without rounding."""
        rule, crowd = int(self.rule[step]), self.crowds[self.source[step]]
        pairs = int(crowd[self.first[rule]]) * int(crowd[self.second[rule]] - self.needs[rule])
        return self.rules.rules[rule].share * pairs

    def outputs(self) -> NDArray[np.int64]:
        """What all agents of each crowd output: 1 true, 0 false, -1 mixed."""
        yes = self.crowds @ np.array(self.rules.outputs, dtype=np.int64)
        return np.where(yes == self.agents, 1, np.where(yes == 0, 0, -1))
