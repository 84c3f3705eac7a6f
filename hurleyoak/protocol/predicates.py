"""Predicates of docs/reference/formats.md: trees, texts, values.

A predicate is a quantifier-free Presburger formula over the input counts: a tree of "less than" and
congruences, with not, and, or (Angluin and others 2006).
"""
from __future__ import annotations

from dataclasses import dataclass
from typing import Sequence, Union

LEAST_MODULUS = 2


@dataclass(frozen=True)
class Less:
    """The sum of the coefficients times the inputs is below the bound."""

    coefficients: tuple[int, ...]
    bound: int


@dataclass(frozen=True)
class Rest:
    """The sum leaves this rest, of 0 to modulus - 1."""

    coefficients: tuple[int, ...]
    modulus: int
    rest: int


@dataclass(frozen=True)
class Not:
    """The part is false."""

    part: "Predicate"


@dataclass(frozen=True)
class And:
    """Both parts are true."""

    left: "Predicate"
    right: "Predicate"


@dataclass(frozen=True)
class Or:
    """A part is true."""

    left: "Predicate"
    right: "Predicate"


Predicate = Union[Less, Rest, Not, And, Or]


class PredicateFault(Exception):
    """A text is no predicate: the program's word for why, the offset, and what was expected there."""

    def __init__(self, why: str, at: int, told: str) -> None:
        super().__init__(f"pred {why} {at}: {told}")
        self.why, self.at, self.told = why, at, told


def atom_of(sums: tuple[int, ...], relation: str, bound: int) -> Predicate:
    """The tree of `sum relation bound`, as docs/guide/certificates.md has it."""
    negative = tuple(-k for k in sums)
    if relation == "<":
        return Less(sums, bound)
    if relation == "<=":
        return Less(sums, bound + 1)
    if relation == ">":
        return Less(negative, -bound)
    if relation == ">=":
        return Less(negative, 1 - bound)
    equal = And(Less(sums, bound + 1), Less(negative, 1 - bound))
    return Not(equal) if relation == "!=" else equal


def sum_text(coefficients: Sequence[int], names: Sequence[str]) -> str:
    """The canonical text of a sum: terms in the order of the variables, `0*` and the first name where there is
    none."""
    out = ""
    for k, name in zip(coefficients, names):
        if k:
            size = name if abs(k) == 1 else f"{abs(k)}*{name}"
            sign = (" - " if k < 0 else " + ") if out else ("-" if k < 0 else "")
            out += sign + size
    return out or f"0*{names[0]}"


def canonical_text(tree: Predicate, names: Sequence[str]) -> str:
    """The text that the program writes for a tree."""
    if isinstance(tree, Less):
        return f"{sum_text(tree.coefficients, names)} < {tree.bound}"
    if isinstance(tree, Rest):
        return f"{sum_text(tree.coefficients, names)} = {tree.rest} mod {tree.modulus}"
    if isinstance(tree, Not):
        return "!" + canonical_text(tree.part, names)
    sign = "&&" if isinstance(tree, And) else "||"
    return f"({canonical_text(tree.left, names)} {sign} {canonical_text(tree.right, names)})"


def value_at(tree: Predicate, counts: Sequence[int]) -> bool:
    """The value at a list of counts, one for each variable."""
    if isinstance(tree, Less):
        return sum(a * v for a, v in zip(tree.coefficients, counts)) < tree.bound
    if isinstance(tree, Rest):
        return (sum(a * v for a, v in zip(tree.coefficients, counts)) - tree.rest) % tree.modulus == 0
    if isinstance(tree, Not):
        return not value_at(tree.part, counts)
    left, right = value_at(tree.left, counts), value_at(tree.right, counts)
    return (left and right) if isinstance(tree, And) else (left or right)
