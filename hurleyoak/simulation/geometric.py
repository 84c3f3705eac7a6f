"""Exact geometric draws: how many meetings change nothing before the next one that does."""
from __future__ import annotations

from decimal import Decimal, localcontext
from math import log, log1p
from typing import Callable

FIRST_BITS, MORE_BITS = 53, 128
# four roundings of at most one unit in the last place (2**-52), with room to spare
SLACK = 2.0**-48
DIGITS_OVER = 40

Bits = Callable[[int], int]


def skipped(good: int, among: int, bits: Bits) -> int:
    """How many draws fail before the first success, where `good` of `among` draws succeed; 0 < good <= among / 2.

    By inversion: the floor of log(U) / log(1 - good/among), for U uniform in the unit interval. `bits(k)` gives k
    random bits. U is drawn bit by bit: floats bound the quotient, and where the floor isn't certain more bits and more
    digits are taken, so no rounding reaches the result.
    """
    drawn = bits(FIRST_BITS)
    if drawn:
        rate = log1p(-good / among)
        low = int(log((drawn + 1) * 2.0**-FIRST_BITS) / rate * (1 - SLACK))
        if low == int(log(drawn * 2.0**-FIRST_BITS) / rate * (1 + SLACK)):
            return low
    return _refined(good, among, drawn, bits)


def _refined(good: int, among: int, drawn: int, bits: Bits) -> int:
    """The same, where the first bits do not decide: more bits, and decimals of so many digits."""
    size = FIRST_BITS
    while True:
        drawn, size = drawn << MORE_BITS | bits(MORE_BITS), size + MORE_BITS
        if not drawn:
            continue
        with localcontext() as context:
            context.prec = size // 3 + len(str(among)) + DIGITS_OVER
            slack = Decimal(10) ** (len(str(among)) + 5 - context.prec)
            rate = (1 - Decimal(good) / among).ln()
            low = int((Decimal(drawn + 1) / (1 << size)).ln() / rate * (1 - slack))
            high = int((Decimal(drawn) / (1 << size)).ln() / rate * (1 + slack))
        if low == high:
            return low
