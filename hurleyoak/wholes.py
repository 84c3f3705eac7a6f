"""The one reader of numbers: digits of ASCII alone, as many as there are, without work that grows with their
square."""
from __future__ import annotations

import re

DIGITS = 60  # more of them make a number that is past every limit of the files and of the options
PAST: int = 10**DIGITS

_WHOLE = re.compile(r"[0-9]+")
_SIGNED = re.compile(r"-?[0-9]+")


def is_whole(text: str) -> bool:
    """Whether a text is digits alone, 0 to 9."""
    return _WHOLE.fullmatch(text) is not None


def whole_of(text: str) -> int:
    """The number of these digits, with a `-` before them or not; `PAST`, or its negative, where it is greater."""
    if _SIGNED.fullmatch(text) is None:
        raise ValueError(f"{text[:DIGITS]!r} is no whole number")
    digits = text.lstrip("-").lstrip("0") or "0"
    size: int = int(digits) if len(digits) <= DIGITS else PAST
    return -size if text.startswith("-") else size
