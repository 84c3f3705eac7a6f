"""Lines quoted with a caret, lists of names, words that are meant."""
from __future__ import annotations

from difflib import get_close_matches
from typing import Iterable, Sequence

ROOM = 100
BEFORE = 60
SHOWN = 40


def quoted(line: str, at: int) -> list[str]:
    """A line and a caret below this place; a long one is shown around it."""
    cut = max(0, at - BEFORE) if len(line) > ROOM else 0
    shown = "".join(c if c.isprintable() or c == " " else " " for c in line[cut : cut + ROOM])
    return [f"    {shown}", f"    {' ' * (at - cut)}^"]


def short(text: str) -> str:
    """A text that is not too long to stand in a sentence."""
    return text if len(text) <= SHOWN else text[:SHOWN] + ".."


def meant(word: str, words: Iterable[str]) -> str:
    """`; did you mean ..?` where one of the words is near."""
    near = get_close_matches(word, list(words), 1, 0.6)
    return f"; did you mean `{near[0]}`?" if near else ""


def listed(names: Sequence[str], most: int = 12) -> str:
    """Names in a row."""
    return ", ".join(names[:most]) + (f" and {len(names) - most} more" if len(names) > most else "")


def several(number: int, one: str, more: str = "") -> str:
    """`1 line`, `2 lines`."""
    return f"{number:,} {one if number == 1 else more or one + 's'}"
