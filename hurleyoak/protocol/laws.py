"""Chances and orders: what a simulation knows of a move beside its states. No certificate speaks of it."""
from __future__ import annotations

from dataclasses import dataclass
from fractions import Fraction


@dataclass(frozen=True)
class Law:
    """How a move is taken: by which chance where its states meet, and whether the first one begins the meeting.

    `chance` is above 0 and at most 1; None is an equal part of what the other moves for the same states leave.
    `ordered` moves are of an initiator and a responder, each of the two as likely to be the initiator.
    """

    chance: Fraction | None = None
    ordered: bool = False


PLAIN = Law()
LAWS_TOLD = (
    "chances (`@`) and orders (`,`) count in `simulate`, `sweep`, `draw` and on the page. A net has none: its runs"
    " take the first move that matches, and a certificate speaks of every choice, not of how likely it is"
)


def chance_text(chance: Fraction) -> str:
    """A chance as it is read back: a decimal number where it is one, else a quotient."""
    decimal = f"{float(chance):.15g}"
    return decimal if Fraction(decimal) == chance and "e" not in decimal else str(chance)
