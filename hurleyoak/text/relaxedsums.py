"""Sums of a predicate as people write it, and the grammar's text of two that are compared."""
from __future__ import annotations

from dataclasses import dataclass, field

from .relaxedtokens import NotRead

_MIRRORED = {"<": ">", "<=": ">=", ">": "<", ">=": "<=", "=": "=", "!=": "!="}


@dataclass
class Sum:
    """A sum of variables and a constant."""

    coefficients: dict[str, int] = field(default_factory=dict)
    constant: int = 0

    def plus(self, other: "Sum", sign: int) -> "Sum":
        out = dict(self.coefficients)
        for name, k in other.coefficients.items():
            out[name] = out.get(name, 0) + sign * k
        return Sum(out, self.constant + sign * other.constant)

    def times(self, k: int) -> "Sum":
        return Sum({name: k * c for name, c in self.coefficients.items()}, k * self.constant)

    def text(self) -> str:
        out = ""
        for name, k in self.coefficients.items():
            size = name if abs(k) == 1 else f"{abs(k)}*{name}"
            out += ((" - " if k < 0 else " + ") if out else ("-" if k < 0 else "")) + size
        return out


def comparison_text(left: Sum, relation: str, right: Sum, place: int) -> str:
    """A comparison with its variables on the left."""
    if not left.coefficients and not right.coefficients:
        raise NotRead(place, "a comparison has a variable on one side at least")
    if not left.coefficients:
        left, relation, right = right, _MIRRORED[relation], left
    difference = left.plus(right, -1)
    return f"{difference.text()} {relation} {-difference.constant}"


def congruence_text(left: Sum, relation: str, right: Sum, inner: int | None, outer: int | None, place: int) -> str:
    """`x % 3 = 1`, with a remainder on the right; or `x = y mod 3`."""
    if relation not in ("=", "!="):
        raise NotRead(place, "a remainder is compared by `=` or `!=`")
    modulus = inner if inner is not None else outer
    assert modulus is not None
    if inner is not None and (right.coefficients or not 0 <= right.constant < max(inner, 1)):
        raise NotRead(place, f"a remainder modulo {inner} is a number from 0 to {inner - 1}")
    if not left.coefficients:
        left, right = right, left
    if not left.coefficients:
        raise NotRead(place, "a comparison has a variable on one side at least")
    difference = left.plus(right, -1)
    rest = -difference.constant
    return f"{difference.text()} {relation} {rest if inner is None else rest % max(inner, 1)} mod {modulus}"
