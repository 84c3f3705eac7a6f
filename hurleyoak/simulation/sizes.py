"""Sizes of a sweep: `x=10..1000*2 y=x-1`, all ranges in step with each other."""
from __future__ import annotations

import re
from typing import Sequence

from ..faults import AskFault
from .simulation import AGENT_LIMIT

SIZE_LIMIT = 200
FORMS = "`x=10..1000*2`, `x=10..100+10`, `x=10,30,100`, `x=40`, or of another variable `y=x-1`, `y=3*x`, `y=x/2+1`"

_PART = re.compile(r"([A-Za-z_][A-Za-z0-9_]*)=(\S+)")
_RANGE = re.compile(r"([0-9]{1,10})\.\.([0-9]{1,10})([*+])([0-9]{1,10})")
_LIST = re.compile(r"[0-9]{1,10}(,[0-9]{1,10})*")
_OTHER = re.compile(r"(?:([0-9]{1,10})\*)?([A-Za-z_][A-Za-z0-9_]*)(?:/([0-9]{1,10}))?(?:([+-])([0-9]{1,10}))?")


def _values(text: str) -> list[int] | None:
    """The numbers of a range or a list; None where the text is neither."""
    if _LIST.fullmatch(text):
        return [int(part) for part in text.split(",")]
    match = _RANGE.fullmatch(text)
    if match is None:
        return None
    value, high, by = int(match[1]), int(match[2]), int(match[4])
    if by < (2 if match[3] == "*" else 1) or value < 1:
        raise AskFault(f"the range `{text}` doesn't grow")
    out: list[int] = []
    while value <= high and len(out) <= SIZE_LIMIT:
        out.append(value)
        value = value * by if match[3] == "*" else value + by
    return out


def _of_other(text: str, known: dict[str, list[int]]) -> list[int] | None:
    match = _OTHER.fullmatch(text)
    if match is None or match[2] not in known:
        return None
    times, by = int(match[1] or 1), int(match[3] or 1)
    if by == 0:
        return None
    add = int(match[5] or 0) * (-1 if match[4] == "-" else 1)
    return [times * value // by + add for value in known[match[2]]]


def sizes_of(words: Sequence[str]) -> list[dict[str, int]]:
    """The counts of each size, by the variables' names; AskFault where the words mean none."""
    known: dict[str, list[int]] = {}
    for word in words:
        match = _PART.fullmatch(word)
        values = match and (_values(match[2]) or _of_other(match[2], known))
        if not match or not values:
            raise AskFault(f"`{word}` names no sizes: they are written {FORMS}")
        if match[1] in known:
            raise AskFault(f"variable `{match[1]}` has two ranges")
        known[match[1]] = values
    lengths = {len(values) for values in known.values()} - {1}
    if not known or len(lengths) > 1:
        told = "are in step: equally many values each" if known else f"are missing: they are written {FORMS}"
        raise AskFault(f"the sizes {told}")
    length = max(lengths, default=1)
    if length > SIZE_LIMIT:
        raise AskFault(f"a sweep has at most {SIZE_LIMIT} sizes")
    sizes = [{name: values[at % len(values)] for name, values in known.items()} for at in range(length)]
    for size in sizes:
        if min(size.values()) < 0 or sum(size.values()) > AGENT_LIMIT:
            told = " ".join(f"{name}={count}" for name, count in size.items())
            raise AskFault(f"the counts {told} are not between 0 and {AGENT_LIMIT:,}")
    return sizes
