"""Crowds in words: `x=30 y=10`, and a simulation's words read."""
from __future__ import annotations

import re
from typing import Sequence

from ..faults import AskFault
from ..faults import InputFault
from ..protocol.nets import Net
from .simulation import AGENT_LIMIT

_COUNT = re.compile(r"([A-Za-z_][A-Za-z0-9_]*)=([0-9]{1,20})")


def whole_word(word: str, text: str, low: int, high: int) -> int:
    """The whole number that follows an option, or a AskFault."""
    if not re.fullmatch(r"[0-9]{1,30}", text) or not low <= int(text) <= high:
        raise AskFault(f"`{word}` is followed by a whole number from {low} to {high}, found `{text}`")
    return int(text)


def counts_of(net: Net, words: Sequence[str]) -> tuple[int, ...]:
    """The counts of all variables, 0 where one isn't named; InputFault where they make no crowd of 2 to 10^9
    agents."""
    counts: dict[str, int] = {}
    for word in words:
        match = _COUNT.fullmatch(word)
        if match is None:
            raise AskFault(f"`{word}` is no count of a variable, as in `{net.names[0]}=30`")
        name, count = match[1], int(match[2])
        if name not in net.names:
            raise InputFault(f"`{name}` is no variable of the net; it has {', '.join(net.names)}")
        if name in counts:
            raise AskFault(f"variable `{name}` has two counts")
        counts[name] = count
    agents = sum(counts.values()) + len(net.leaves[0].helpers)
    if not 2 <= agents <= AGENT_LIMIT:
        raise InputFault(
            f"the crowd has {agents} agent{'' if agents == 1 else 's'}: it takes 2 to {AGENT_LIMIT:,}, "
            f"given as in `{net.names[0]}=30`"
        )
    return tuple(counts.get(name, 0) for name in net.names)


def crowd_words(net: Net, counts: Sequence[int]) -> str:
    """The counts as words, those of 0 left out."""
    return " ".join(f"{name}={k}" for name, k in zip(net.names, counts) if k)


def split_words(words: Sequence[str]) -> tuple[list[str], list[str]]:
    """Words that name files, and words with `=`, which are counts."""
    return [word for word in words if "=" not in word], [word for word in words if "=" in word]
