"""The leaf of `sum = r mod m` with O(log m) states: a counter of digits, kept by helpers.

An agent of a variable is a token (v, i) that still has to add v*W(i). W(i) is the place of digit i. Two equal tokens
with a small v join, so that few have to meet the helper that keeps the digit. Coefficients are
taken from 0 to m - 1. Where it has passed all digits with a carry, W, it comes back as a token of the value W - m. As
W < 2*m, the counter shows m - 1 just where the sum is m - 1 modulo m, and it starts at m - 1 - r. A helper whose digit
isn't that of m - 1 turns the hub to false. One that comes to its right digit is fresh, and turns the hub to true once.
So at the end a hub of true has no wrong digit beside it, and where all digits are right the last who was fresh left a
hub of true. The hub turns the answers of all others, with callers as in the leaf of powers.
"""
from __future__ import annotations

from dataclasses import dataclass, field
from math import prod

from ..protocol.predicates import Rest
from .drafts import LeafDraft

BASE = 4
JOINED = (1, 2)  # what tokens have to add that join
FRESH = "'"


def radices_for(need: int) -> list[int]:
    """Radices whose product is at least `need`: all the base, the last one as small as it can be."""
    out: list[int] = []
    have = 1
    while have < need:
        out.append(min(BASE, -(-need // have)))
        have *= out[-1]
    return out


def token_name(v: int, i: int) -> str:
    """The name of an agent that still has to add v at digit i."""
    return f"{v}@{i}"


@dataclass
class Modulo:
    """The leaf. `level[s]` is the place of a digit's state; `token[s]` the place where a token still has to add."""

    draft: LeafDraft
    atom: Rest
    radices: list[int]
    places: list[int]
    goal: list[int]
    nothing: dict[bool, int]
    caller: dict[bool, int]
    hubs: dict[bool, int]
    digit: dict[tuple[int, int, str], int] = field(default_factory=dict)
    level: dict[int, int] = field(default_factory=dict)
    token: dict[int, int] = field(default_factory=dict)
    wrong: list[int] = field(default_factory=list)  # digits that are not those of m - 1, the greatest place first
    waiting: list[tuple[int, int, int]] = field(default_factory=list)

    @property
    def fresh(self) -> list[int]:
        """The right digits that have not told the hub yet."""
        return [self.digit[i, d, FRESH] for i, d in enumerate(self.goal)]

    @property
    def sayers(self) -> list[tuple[int, int]]:
        """The states that say false, each with the one that says true."""
        right = [(self.digit[i, d, "f"], self.digit[i, d, "t"]) for i, d in enumerate(self.goal)]
        return [(self.nothing[False], self.nothing[True]), *right]

    def at(self, v: int, i: int) -> int:
        """The state of an agent that still has to add v at digit i: nothing, or a token."""
        while v and i < len(self.radices) and v % self.radices[i] == 0:
            v, i = v // self.radices[i], i + 1
        if v == 0:
            return self.nothing[False]
        if i == len(self.radices):
            return self.at(self.places[i] - self.atom.modulus, 0)
        name = token_name(v, i)
        is_new = name not in self.draft.numbers
        state = self.draft.state(name, False, v * self.places[i])
        if is_new:
            self.token[state] = i
            self.waiting.append((state, v, i))
        return state


def _started(atom: Rest) -> Modulo:
    """The states that are there whatever the coefficients are."""
    m = atom.modulus
    radices = radices_for(m)
    places = [prod(radices[:i]) for i in range(len(radices) + 1)]
    goal = [(m - 1) // place % radix for place, radix in zip(places, radices)]
    draft = LeafDraft()
    nothing = {b: draft.state("t" if b else "f", b, 0) for b in (False, True)}
    hubs = {b: draft.state("Ht" if b else "Hf", b, 0) for b in (False, True)}
    draft.spare = nothing[False]
    caller = {b: draft.state("T" if b else "F", b, 0) for b in (False, True)}
    it = Modulo(draft, atom, radices, places, goal, nothing, caller, hubs)
    for i, radix in enumerate(radices):
        for d in range(radix):
            for b in "ft" + FRESH if d == goal[i] else ("",):
                state = draft.state(f"{i}.{d}{b}", b == "t", d * places[i])
                it.digit[i, d, b], it.level[state] = state, i
                if d != goal[i]:
                    it.wrong.insert(0, state)
    return it


def _join(it: Modulo) -> None:
    """Two tokens that have 1 or 2 to add at one place become one, and an agent that is worth nothing.

    Twice that is at most the radix: a carry of 2 out of the last place would be taken for one of 1.
    """
    for i, radix in enumerate(it.radices):
        for v in (v for v in JOINED if 2 * v <= radix):
            token = it.at(v, i)
            if it.draft.states[token] == token_name(v, i):
                it.draft.move(token, token, it.at(2 * v, i), it.nothing[False])


def _add(it: Modulo) -> None:
    """Tokens add to their digit, and carry."""
    while it.waiting:
        token, v, i = it.waiting.pop()
        for (j, d, _), at in list(it.digit.items()):
            if j == i:
                carry, left = divmod(v + d, it.radices[i])
                it.draft.move(token, at, it.at(carry, i + 1), it.digit[i, left, FRESH if left == it.goal[i] else ""])


def _tell(it: Modulo) -> None:
    """Digits tell the hub; the hub turns callers; hub and callers tell all others."""
    move, caller, yes, no = it.draft.move, it.caller, it.hubs[True], it.hubs[False]
    for state in it.wrong:
        move(state, yes, state, no, 1)
    for fresh, (_, told) in zip(it.fresh, it.sayers[1:]):
        for hub in it.hubs.values():
            move(fresh, hub, told, yes, 1)
    move(yes, no, yes, it.nothing[False], 1)
    move(yes, caller[False], yes, caller[True], 2)
    move(no, caller[True], no, caller[False], 3)
    move(caller[True], caller[False], it.nothing[True], it.nothing[False], 4)
    for b, layer in ((True, 5), (False, 6)):
        for both in it.sayers:
            wrong, right = both[not b], both[b]
            move(it.hubs[b], wrong, it.hubs[b], caller[b] if wrong == it.nothing[not b] else right, layer)
            move(caller[b], wrong, caller[b], right, layer)


def modulo_leaf(atom: Rest) -> Modulo:
    """The leaf of a congruence."""
    it = _started(atom)
    it.draft.inputs = [it.at(a % atom.modulus, 0) for a in atom.coefficients]
    _join(it)
    _add(it)
    _tell(it)
    start = (atom.modulus - 1 - atom.rest) % atom.modulus
    digits = [start // place % radix for place, radix in zip(it.places, it.radices)]
    it.draft.helpers = [it.hubs[digits == it.goal]]
    it.draft.helpers += [it.digit[i, d, "t" if d == it.goal[i] else ""] for i, d in enumerate(digits)]
    return it
