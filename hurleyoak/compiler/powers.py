"""The leaf of `a(1)*x(1) + .. < c` with both signs and about three states for each bit.

An agent is worth a power of two or nothing; two that are worth the same join, up to W = 2^k, a plus. Only the hub is
worth less than nothing for good: it is worth 0 or -W. An agent of a variable with a negative coefficient -a is a
debtor. It waits for an agent that is worth more than a, or for a hub of 0, and takes what it owes. Together with 2^i
it becomes 2^i - a and nothing. With a hub of 0 it becomes W - a and makes the hub -W. What is no power of two is given
off to agents that are worth nothing, the greatest power first: such an agent is a token. Two equal tokens of a variable
join, so that a crowd of tokens alone soon has agents that are worth nothing. At the end a hub of -W has no plus beside
it, and a hub of 0 no debtor: the sign of the sum is the hub's.

The hub turns the answers of all others. It also makes callers, of agents that are worth nothing and say what is wrong.
A caller turns the answers of all but other callers and makes no callers. A hub turns the callers of the other answer,
and two callers of different answers fall silent. So a hub that changes its mind need not meet everybody.

The sum may be taken with the other sign, which exchanges the two answers: `sum < c` is the denial of `-sum < 1 - c`.
"""
from __future__ import annotations

from dataclasses import dataclass, field

from ..protocol.predicates import Less
from .drafts import MULTIPLIER_LIMIT, LeafDraft, NotBuilt, ends_of, ones, power_name

LOW, HIGH, PLUS = "N", "O", "P"
ANSWERS = (False, True)


@dataclass
class Powers:
    """The leaf; `low` and `high` are the hubs, worth -W and 0, and `plus` is worth W.

    `nothing[b]`, `caller[b]` and `power[i, b]` are worth 0, 0 and 2^i, with the answer of a hub of 0 (b false) or of -W
    (b true).
    """

    draft: LeafDraft
    k: int
    low_output: bool
    low: int
    high: int
    plus: int
    nothing: dict[bool, int]
    caller: dict[bool, int]
    power: dict[tuple[int, bool], int]
    tokens: list[int] = field(default_factory=list)
    debtors: list[int] = field(default_factory=list)
    waiting: list[int] = field(default_factory=list)  # tokens whose move is not there yet

    def of_worth(self, v: int) -> int:
        """The state that is worth v, from 0 to W."""
        if v == 0:
            return self.nothing[False]
        if v == 1 << self.k:
            return self.plus
        if v & (v - 1) == 0:
            return self.power[v.bit_length() - 1, False]
        is_new = str(v) not in self.draft.numbers
        state = self.draft.state(str(v), not self.low_output, v)
        if is_new:
            self.tokens.append(state)
            self.waiting.append(state)
        return state

    def debtor(self, a: int) -> int:
        """The state of a variable with the coefficient -a."""
        is_new = str(-a) not in self.draft.numbers
        state = self.draft.state(str(-a), self.low_output, -a)
        if is_new:
            self.debtors.append(state)
        return state

    @property
    def sayers(self) -> list[tuple[int, int]]:
        """The states that are worth nothing or a power, with both answers."""
        powers = [(self.power[i, False], self.power[i, True]) for i in range(self.k)]
        return [(self.nothing[False], self.nothing[True]), *powers]


def _started(k: int, low_output: bool) -> Powers:
    """The states that are there whatever the coefficients are."""
    draft = LeafDraft()
    low = draft.state(LOW, low_output, -(1 << k))
    high = draft.state(HIGH, not low_output, 0)
    nothing = {b: draft.state(f"0{'ft'[b]}", b == low_output, 0) for b in ANSWERS}
    power = {
        (i, b): draft.state(f"{power_name(i)}{'ft'[b]}", b == low_output, 1 << i) for i in range(k) for b in ANSWERS
    }
    plus = draft.state(PLUS, not low_output, 1 << k)
    caller = {b: draft.state(f"0{'FT'[b]}", b == low_output, 0) for b in ANSWERS}
    draft.spare = nothing[False]
    return Powers(draft, k, low_output, low, high, plus, nothing, caller, power)


def _join(it: Powers) -> None:
    """What is worth the same joins."""
    for i in range(it.k):
        for b, b2 in ((False, False), (False, True), (True, True)):
            joined = it.power[i + 1, b2] if i + 1 < it.k else it.plus
            it.draft.move(it.power[i, b], it.power[i, b2], joined, it.nothing[b])


def _pay(it: Powers) -> None:
    """Debtors are paid: by a power, by a plus, or by the hub."""
    move, width = it.draft.move, 1 << it.k
    for debtor in it.debtors:
        a = -it.draft.worth[debtor]
        for (i, b), power in it.power.items():
            if 1 << i >= a:
                move(debtor, power, it.of_worth((1 << i) - a), it.nothing[b])
        move(debtor, it.plus, it.of_worth(width - a), it.nothing[False])
        move(debtor, it.high, it.of_worth(width - a), it.low)


def _double(it: Powers, tokens: list[int]) -> None:
    """Two equal tokens of a variable become one of twice the worth, and an agent that is worth nothing."""
    for a in ends_of(tokens):
        if 2 * a < 1 << it.k:
            token = it.of_worth(a)
            it.draft.move(token, token, it.of_worth(2 * a), it.nothing[False])


def _give_off(it: Powers) -> None:
    """Tokens give off their greatest power, and what is left is a token or a power."""
    draft = it.draft
    while it.waiting:
        token = it.waiting.pop()
        given = ones(draft.worth[token])[0]
        rest = it.of_worth(draft.worth[token] - (1 << given))
        for zeros in (it.nothing, it.caller):
            for b in ANSWERS:
                draft.move(token, zeros[b], rest, it.power[given, b])


def _meet(it: Powers) -> None:
    """The hubs meet each other and the plus."""
    it.draft.move(it.plus, it.low, it.nothing[False], it.high)
    it.draft.move(it.low, it.high, it.low, it.nothing[False])


def _call(it: Powers) -> None:
    """The hubs turn the callers, with the help of debtors and pluses; two callers fall silent."""
    move, nothing, caller = it.draft.move, it.nothing, it.caller
    for b, hub, helping, layer in ((True, it.low, it.debtors, 1), (False, it.high, [it.plus], 2)):
        move(hub, caller[not b], hub, caller[b], layer)
        for state in helping:
            move(state, caller[not b], state, nothing[b], layer)
    move(caller[True], caller[False], nothing[True], nothing[False], 3)


def _tell(it: Powers) -> None:
    """Hubs and callers turn the answers; debtors and pluses help with those worth nothing."""
    move, nothing, caller = it.draft.move, it.nothing, it.caller
    for b, hub, helping, layer in ((True, it.low, it.debtors, 4), (False, it.high, [it.plus], 5)):
        for both in it.sayers:
            wrong, right = both[not b], both[b]
            is_nothing = wrong == nothing[not b]
            move(hub, wrong, hub, caller[b] if is_nothing else right, layer)
            move(caller[b], wrong, caller[b], right, layer)
        for state in helping:
            move(state, nothing[not b], state, nothing[b], layer)


def range_of(coefficients: tuple[int, ...], bound: int) -> int:
    """The number whose bits the leaf keeps: the greatest of the coefficients' sizes, c and 1 - c."""
    return max(bound, 1 - bound, *(abs(a) for a in coefficients))


def power_of(coefficients: tuple[int, ...], bound: int, tokens: list[int]) -> int:
    """The k of the leaf: its range is 2^k, and twice a token is below it, where that is within the limits."""
    greatest = MULTIPLIER_LIMIT.bit_length() - 1
    k = (min(range_of(coefficients, bound), MULTIPLIER_LIMIT) - 1).bit_length()
    return min(max([k, *((2 * a).bit_length() for a in tokens)]), greatest)


def powers_leaf(atom: Less, turned: bool = False, joins: bool = True) -> Powers:
    """The leaf, of the sum or of the sum with the other sign; without `joins` tokens don't join, which takes fewer
    states. NotBuilt where the bound is above the greatest multiplier."""
    coefficients, bound = atom.coefficients, atom.bound
    if turned:
        coefficients, bound = tuple(-a for a in coefficients), 1 - bound
    tokens = [a for a in coefficients if a > 0 and a & (a - 1)] if joins else []
    k = power_of(coefficients, bound, tokens)
    width = 1 << k
    if bound > width:
        raise NotBuilt(f"the bound {bound} is above {MULTIPLIER_LIMIT}, the greatest multiplier of a proof")
    it = _started(k, not turned)
    it.draft.inputs = [it.of_worth(a) if a >= 0 else it.debtor(-a) for a in coefficients]
    _join(it)
    _pay(it)
    _double(it, tokens)
    _give_off(it)
    _meet(it)
    _call(it)
    _tell(it)
    start = -bound
    it.draft.helpers = [it.low if start < 0 else it.high]
    it.draft.helpers += [it.power[i, False] for i in ones(start % width)]
    if start == width:
        it.draft.helpers.append(it.plus)
    if it.tokens:
        it.draft.pad(k + 2)
    return it


def best_powers(atom: Less, joins: bool = True) -> Powers:
    """The leaf of the sign with fewer states."""
    plain = powers_leaf(atom, False, joins)
    if 1 - atom.bound > MULTIPLIER_LIMIT:
        return plain
    return min(plain, powers_leaf(atom, True, joins), key=lambda it: len(it.draft.states))
