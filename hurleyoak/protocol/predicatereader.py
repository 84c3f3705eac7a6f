"""Reads a predicate's text, by the grammar of docs/reference/formats.md, with the program's faults."""
from __future__ import annotations

import re
from dataclasses import dataclass
from functools import lru_cache
from typing import Sequence

from ..limits import BOUND_LIMIT as CONSTANT_LIMIT
from ..limits import COEFFICIENT_LIMIT
from ..limits import MODULUS_LIMIT as GREATEST_MODULUS
from ..limits import PARENTHESIS_LIMIT as OPEN_LIMIT
from ..limits import WEIGHT_LIMIT as CHARGE_LIMIT
from ..wholes import whole_of
from .predicates import LEAST_MODULUS, And, Not, Or, Predicate, PredicateFault, Rest, atom_of

KEPT = 64  # trees that are kept, as one predicate is read more than once

_TOKEN = re.compile(r"(?:([A-Za-z_][A-Za-z0-9_]*)|([0-9]+)|(<=|>=|!=|&&|\|\||[-+*<>=!()])|(.))", re.DOTALL)
_BLANKS = re.compile(r"[ \t]*")
_CHARGES = {"!": 1, "&&": 1, "||": 1, "=": 1, "!=": 2}
RELATIONS = ("<", "<=", ">", ">=", "=", "!=")


@dataclass(frozen=True)
class _Token:
    text: str
    at: int
    kind: str  # name, number, sign, odd, end


def _tokens(text: str) -> list[_Token]:
    out, at = [], 0
    while True:
        blanks = _BLANKS.match(text, at)
        match = _TOKEN.match(text, blanks.end() if blanks else at)
        if match is None:
            break
        for group, kind in enumerate(("name", "number", "sign", "odd"), start=1):
            if match.group(group) is not None:
                name = "sign" if match.group(group) == "mod" else kind
                out.append(_Token(match.group(group), match.start(group), name))
        at = match.end()
    return out + [_Token("", len(text), "end")]


class _Reader:
    """Reads left to right, so that the first token that breaks a rule is the one reported."""

    def __init__(self, text: str, names: Sequence[str]) -> None:
        self.numbers = {name: i for i, name in enumerate(names)}
        self.names = names
        self.tokens = _tokens(text)
        self.next = 0
        self.open = 0
        self.charge = 0

    def peek(self) -> _Token:
        return self.tokens[self.next]

    def refuse(self, expected: str) -> PredicateFault:
        token = self.peek()
        found = f"found `{token.text}`" if token.text else "the predicate ends here"
        return PredicateFault("syntax", token.at, f"expected {expected}, {found}")

    def take(self) -> _Token:
        token = self.peek()
        self.next += 1
        if token.kind == "sign" and token.text in _CHARGES:
            self.charge += _CHARGES[token.text]
            if self.charge > CHARGE_LIMIT:
                raise PredicateFault(
                    "deep",
                    token.at,
                    f"the signs may be charged {CHARGE_LIMIT} in all, and this one makes it {self.charge}",
                )
        return token

    def sign(self, *texts: str) -> bool:
        return self.peek().kind == "sign" and self.peek().text in texts

    def whole(self) -> Predicate:
        tree = self.disjunction()
        if self.peek().kind != "end":
            raise self.refuse("`&&`, `||` or the end")
        return tree

    def disjunction(self) -> Predicate:
        left = self.conjunction()
        while self.sign("||"):
            self.take()
            left = Or(left, self.conjunction())
        return left

    def conjunction(self) -> Predicate:
        left = self.unit()
        while self.sign("&&"):
            self.take()
            left = And(left, self.unit())
        return left

    def unit(self) -> Predicate:
        if self.sign("!"):
            self.take()
            return Not(self.unit())
        if not self.sign("("):
            return self.atom()
        token = self.take()
        self.open += 1
        if self.open > OPEN_LIMIT:
            raise PredicateFault("deep", token.at, f"at most {OPEN_LIMIT} parentheses are open at once")
        tree = self.disjunction()
        if not self.sign(")"):
            raise self.refuse("`)`, `&&` or `||`")
        self.take()
        self.open -= 1
        return tree

    def term(self, sums: list[int], sign: int) -> None:
        first, number = self.peek(), 1
        if first.kind == "number":
            number = whole_of(self.take().text)
            if not self.sign("*"):
                raise self.refuse(
                    "`*` and a variable after the number (constants belong on the right of the relation)"
                )
            self.take()
        name = self.peek()
        if name.kind != "name":
            raise self.refuse("a variable" if number == 1 and first is name else "a variable after `*`")
        self.take()
        at = self.numbers.get(name.text)
        if at is None:
            raise PredicateFault(
                "unknown", name.at, f"`{name.text}` is no variable; there are {', '.join(self.names)}"
            )
        sums[at] += sign * number
        if number > COEFFICIENT_LIMIT or abs(sums[at]) > COEFFICIENT_LIMIT:
            raise PredicateFault("large", first.at, f"a coefficient is at most {COEFFICIENT_LIMIT} in size")

    def sum(self) -> tuple[int, ...]:
        sums = [0] * len(self.names)
        sign = 1
        if self.sign("-"):
            self.take()
            sign = -1
        elif self.peek().kind not in ("name", "number"):
            raise self.refuse("a sum, `!` or `(`")
        while True:
            self.term(sums, sign)
            if not self.sign("+", "-"):
                return tuple(sums)
            sign = 1 if self.take().text == "+" else -1

    def atom(self) -> Predicate:
        sums = self.sum()
        if not self.sign(*RELATIONS):
            raise self.refuse("`+`, `-` or one of `<`, `<=`, `>`, `>=`, `=`, `!=`")
        relation = self.take().text
        bound = self.constant(CONSTANT_LIMIT if relation == "<" else CONSTANT_LIMIT - 1)
        if relation in ("=", "!=") and self.sign("mod"):
            self.take()
            tree: Predicate = self.congruence(sums, bound)
            return Not(tree) if relation == "!=" else tree
        return atom_of(sums, relation, bound)

    def constant(self, limit: int) -> int:
        negative = self.sign("-")
        if negative:
            self.take()
        token = self.peek()
        if token.kind != "number":
            raise self.refuse("a number")
        self.take()
        if whole_of(token.text) > limit:
            raise PredicateFault("large", token.at, f"the constant is at most {limit} in size here")
        return -whole_of(token.text) if negative else whole_of(token.text)

    def congruence(self, sums: tuple[int, ...], bound: int) -> Rest:
        token = self.peek()
        if token.kind != "number":
            raise self.refuse("a number, the modulus")
        self.take()
        modulus = whole_of(token.text)
        if not LEAST_MODULUS <= modulus <= GREATEST_MODULUS:
            raise PredicateFault("large", token.at, f"a modulus is {LEAST_MODULUS} to {GREATEST_MODULUS}")
        return Rest(sums, modulus, bound % modulus)


def read_predicate(text: str, names: Sequence[str]) -> Predicate:
    """The tree of a text over these variables; PredicateFault says the first fault."""
    return _read(text, tuple(names))


@lru_cache(maxsize=KEPT)
def _read(text: str, names: tuple[str, ...]) -> Predicate:
    return _Reader(text, names).whole()
