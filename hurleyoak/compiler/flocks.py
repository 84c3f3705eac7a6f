"""The leaf of an atom whose coefficients have one sign, a(1)*x(1) + .. >= c with all a >= 0: a flock with weights.

An agent is worth nothing or a power of two; two that are worth the same join. What is worth 2^k, the least power that
is at least c, turns all others into itself. Helpers are worth 2^k - c together. A coefficient that is no power of two
is given off to agents that are worth nothing, the greatest power first. Two equal ones of a variable join before that.
"""
from __future__ import annotations

from dataclasses import dataclass, field
from typing import Iterable

from ..proof.bundles import Layer, LeafProof, Node
from ..protocol.predicates import Less
from .branch import EMPTY, ENTERS, STARTS, VALUE, WRONG, Branch, Says, Sum, flows, said_of
from .drafts import MULTIPLIER_LIMIT, LeafDraft, NotBuilt, ends_of, ones, power_name


@dataclass(frozen=True)
class OneSign:
    """An atom of one sign: the weights of the variables, the least sum, and the atom's value where it is reached."""

    weights: tuple[int, ...]
    least: int
    reached: bool


@dataclass(frozen=True)
class Flock:
    """The leaf, its power k, and how many powers each token has still to give off."""

    draft: LeafDraft
    atom: OneSign
    power: int
    powers: tuple[int, ...]
    tokens: dict[int, int]
    zero: int
    top: int


def one_sign(atom: Less) -> OneSign | None:
    """The atom as a flock; None for one that has both signs."""
    if all(a <= 0 for a in atom.coefficients):
        return OneSign(tuple(-a for a in atom.coefficients), 1 - atom.bound, True)
    if all(a >= 0 for a in atom.coefficients):
        return OneSign(atom.coefficients, atom.bound, False)
    return None


def constant_leaf(atom: OneSign) -> LeafDraft:
    """The leaf of an atom that every input reaches: one state."""
    draft = LeafDraft()
    draft.spare = draft.state("all", atom.reached, 0)
    draft.inputs = [draft.spare] * len(atom.weights)
    return draft


def constant_proof(draft: LeafDraft, atom: OneSign, text: str) -> LeafProof:
    """No layers, and trees of two nodes."""
    opened, root = Branch.root(draft).opened()
    trees = {b: (opened, root.lin({WRONG: 1} if b == atom.reached else {VALUE: 1})) for b in (False, True)}
    return LeafProof(text, (), trees[True], trees[False])


@dataclass
class _Tokens:
    """A flock's states by what they are worth; `ones_of` has the tokens, and `waiting` those without a move yet."""

    draft: LeafDraft
    atom: OneSign
    zero: int
    ones_of: dict[int, int] = field(default_factory=dict)
    waiting: list[int] = field(default_factory=list)

    def of_worth(self, v: int) -> int:
        """The state that is worth v, below 2^k."""
        if v == 0:
            return self.zero
        if v & (v - 1) == 0:
            return self.draft.numbers[power_name(v.bit_length() - 1)]
        is_new = str(v) not in self.draft.numbers
        state = self.draft.state(str(v), not self.atom.reached, v)
        if is_new:
            self.ones_of[state] = len(ones(v))
            self.waiting.append(v)
        return state

    def join(self, weights: Iterable[int], top: int, full: int) -> None:
        """Two equal tokens of a variable become one and an agent that is worth nothing, or two full ones."""
        for a in ends_of(weights):
            token = self.of_worth(a)
            both = (self.of_worth(2 * a), self.zero) if 2 * a < full else (top, top)
            self.draft.move(token, token, *both)

    def give_off(self) -> None:
        """Tokens give off their greatest power to agents that are worth nothing."""
        while self.waiting:
            v = self.waiting.pop()
            given = 1 << ones(v)[0]
            self.draft.move(self.of_worth(v), self.zero, self.of_worth(v - given), self.of_worth(given))


def flock_leaf(atom: OneSign, joins: bool = True) -> Flock:
    """The leaf with helpers; without `joins` tokens don't join, which takes fewer states. NotBuilt where its power is
    above the greatest multiplier."""
    k = (atom.least - 1).bit_length()
    if 1 << k > MULTIPLIER_LIMIT:
        raise NotBuilt(
            f"the least sum {atom.least} asks for 2^{k}, and multipliers of a proof go to {MULTIPLIER_LIMIT}"
        )
    draft = LeafDraft()
    powers = tuple(draft.state(power_name(i), not atom.reached, 1 << i) for i in range(k))
    zero = draft.state("0", not atom.reached, 0)
    top = draft.state(power_name(k), atom.reached, 1 << k)
    tokens = _Tokens(draft, atom, zero)
    draft.inputs = [top if a >= atom.least else tokens.of_worth(a) for a in atom.weights]
    for i, state in enumerate(powers):
        draft.move(state, state, draft.numbers[power_name(i + 1)], zero)
    if joins:
        tokens.join([a for a in atom.weights if a < atom.least], top, 1 << k)
    tokens.give_off()
    for state in range(len(draft.states)):
        if state != top:
            draft.move(top, state, top, top)
    draft.helpers = [powers[i] for i in ones((1 << k) - atom.least)]
    draft.spare = zero
    if tokens.ones_of:
        draft.pad(k + 1)
    return Flock(draft, atom, k, powers, tokens.ones_of, zero, top)


def _layer(flock: Flock) -> Layer:
    draft = flock.draft
    weights = [2 * len(ones(v)) if v else 1 for v in draft.worth]
    weights[flock.top] = 0
    return Layer(tuple(range(len(draft.moves))), tuple(weights))


def worths_but(draft: LeafDraft, state: int) -> dict[int, int]:
    """The worth of each state, but of one nothing."""
    return {s: 0 if s == state else v for s, v in enumerate(draft.worth)}


def missed(draft: LeafDraft, full: int, least: int, gives: int, value: bool) -> list[Node]:
    """The tree where the sum isn't reached: nobody ever came to `full`, where an agent is worth `gives` at least."""
    opened, root = Branch.root(draft).opened()
    siphon, enters, starts, never = root.siphon({full})
    is_made = any(full in (r, s) and full not in (p, q) for p, q, r, s in draft.moves)
    entered: Sum = {**flows(worths_but(draft, full)), VALUE: 1, ENTERS: gives} if is_made else {ENTERS: 1}
    return [
        opened,
        siphon,
        enters.lin(entered),
        starts.lin({VALUE: 1, STARTS: least}),
        never.lin({WRONG: 1, EMPTY: -1}),
    ]


def _reached(flock: Flock, value: bool) -> list[Node]:
    """The tree where the sum is reached: without 2^k the powers that are left are worth too little."""
    draft = flock.draft
    single = {p: draft.worth[p] for p in flock.powers}
    opened, root = Branch.root(draft).opened()
    look, branch, here = root.present(flock.top)
    nodes = [opened, look]
    for state in flock.powers:
        twin, branch = branch.twin(state)
        nodes.append(twin)
    if flock.tokens:
        node, none, branch = branch.present(flock.zero)
        # there are more agents than one for each power and each token's input
        crowd = flows({s: 0 if s in flock.tokens else -1 for s in range(len(draft.states))})
        absent = said_of(Says.ABSENT, {flock.zero: -1, flock.top: -1})
        nodes += [node, none.lin({**crowd, **said_of(Says.SINGLE, dict.fromkeys(flock.powers, 1)), **absent})]
    great = max(1 << flock.power, *flock.atom.weights)
    terms: Sum = flows({s: -v for s, v in enumerate(draft.worth)})
    terms[Says.FLOW, flock.top] = terms[Says.ABSENT, flock.top] = -great
    terms |= {VALUE: 1, **said_of(Says.SINGLE, single)}
    terms |= said_of(Says.ABSENT, {s: -draft.worth[s] for s in flock.tokens})
    return [*nodes, branch.lin(terms), here.wrong_is_absent(value)]


def flock_proof(flock: Flock, text: str) -> LeafProof:
    """One layer, and a tree for each value."""
    atom = flock.atom

    def tree(value: bool) -> tuple[Node, ...]:
        if value == atom.reached:
            return tuple(_reached(flock, value))
        return tuple(missed(flock.draft, flock.top, atom.least, 1 << flock.power, value))

    return LeafProof(text, (_layer(flock),), tree(True), tree(False))
