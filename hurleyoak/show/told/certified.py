"""Which predicate and moves were certified: taken from what the program's `show` prints."""
from __future__ import annotations

from typing import Iterator, Sequence

TOLD_LINES = 40
LEFT_OUT = ("variables", "states", "no", "layer", "weights", "lists", "goal", "set")
OF_SEVERAL = ("combine", "leaf", "computes")


def certified_told(shown: Sequence[str], file: str) -> list[str]:
    """Sentences on the lines of `show` below its claim, which stand as they are, without the proof's; a long net is cut
    off."""
    lines = cut(list(kept(shown)), f"pop show {file}")
    return [f"{file}: this is what the program has certified:", *lines]


def cut(lines: Sequence[str], command: str) -> list[str]:
    """The first lines, set in, and how many more there are, with the command that shows them."""
    left = len(lines) - TOLD_LINES
    more = [f"  .. and {left} more lines: `{command}`"] if left > 0 else []
    return [*(f"  {line}" for line in lines[:TOLD_LINES]), *more]


def kept(lines: Sequence[str]) -> Iterator[str]:
    """The lines of the net and the predicates; a single leaf needs neither its number nor a combination and a predicate
    of its own."""
    is_alone = sum(line.startswith("leaf ") for line in lines) == 1 and "combine 0" in lines
    for line in lines:
        word = line.partition(" ")[0]
        if word not in LEFT_OUT and not (is_alone and word in OF_SEVERAL):
            yield line
