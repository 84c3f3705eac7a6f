"""Words as they are typed: `--seed=3` is `--seed 3`."""
from __future__ import annotations

from typing import Collection, Sequence


def split_values(arguments: Sequence[str], names: Collection[str]) -> list[str]:
    """The words with `--seed=3` as `--seed 3`, where the name is that of an option with a value."""
    out: list[str] = []
    for word in arguments:
        name, sign, value = word.partition("=")
        out += [name, value] if sign and name in names else [word]
    return out
