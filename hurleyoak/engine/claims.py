"""What an answer of `check` or `show` claims. The program's lines are read here, whole, and nowhere else."""
from __future__ import annotations

import re
from dataclasses import dataclass
from enum import StrEnum
from itertools import takewhile

TAME = "tame"
FURTHER = (TAME,)  # the words that may stand below the claim, in a line each
_CLAIM = re.compile(r"(?:if ([^:]+): )?(certified|stable) (0|[1-9][0-9]{0,39})")


class ClaimKind(StrEnum):
    """What is claimed of a bundle."""

    CERTIFIED = "certified"
    STABLE = "stable"
    NOTHING = "nothing"


@dataclass(frozen=True)
class Claim:
    """A claim with its bound, steps for each agent. It speaks of the inputs of `condition` alone where there is one;
    `further` are the words below it."""

    kind: ClaimKind = ClaimKind.NOTHING
    bound: int = 0
    condition: str = ""
    further: tuple[str, ...] = ()

    def __bool__(self) -> bool:
        return self.kind != ClaimKind.NOTHING

    @property
    def is_certified(self) -> bool:
        """Whether all inputs come to silent crowds with the right outputs."""
        return self.kind == ClaimKind.CERTIFIED and not self.condition

    @property
    def is_tame(self) -> bool:
        """Whether the layers are tame, so that random meetings settle a crowd in cubic time."""
        return self.is_certified and TAME in self.further

    def meetings(self, agents: int) -> int | None:
        """How many random meetings of so many agents, helpers among them, lead to the end on average at most; None
        where nothing is claimed of it."""
        return self.bound * agents * agents * (agents - 1) // 2 if self.is_tame else None

    @property
    def is_stable(self) -> bool:
        """Whether outputs come to rest while agents may go on changing."""
        return self.kind == ClaimKind.STABLE


NO_CLAIM = Claim()


def claimed(text: str) -> Claim:
    """What the whole text claims; NO_CLAIM where any of it is no part of a claim."""
    first, *further = text.removesuffix("\n").split("\n")
    found = _CLAIM.fullmatch(first)
    if found is None or len(set(further)) < len(further) or not set(further) <= set(FURTHER):
        return NO_CLAIM
    return Claim(ClaimKind(found[2]), int(found[3]), found[1] or "", tuple(further))


def split_shown(text: str) -> tuple[str, list[str]]:
    """What `show` prints, cut into the text of its claim, which `check` prints too, and the lines below that."""
    lines = text.removesuffix("\n").split("\n")
    end = 1 + len([*takewhile(lambda line: line in FURTHER, lines[1:])])
    return "".join(f"{line}\n" for line in lines[:end]), lines[end:]
