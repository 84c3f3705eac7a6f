"""What is said of a small crowd: the chance of each end and of each output, and how many meetings that takes."""
from __future__ import annotations

from dataclasses import dataclass
from fractions import Fraction
from math import inf
from typing import Callable, TypeAlias

Number: TypeAlias = float | Fraction
Each: TypeAlias = Callable[[str], None]
Crowd: TypeAlias = dict[str, int]
Chances: TypeAlias = dict[bool | None, Number]


def quiet(_told: str) -> None:
    """Says nothing of what goes on."""


@dataclass(frozen=True)
class End:
    """A terminal crowd, or one crowd of a closed class of `size` crowds; `output` is what all agents of all of them
    output, None where they differ."""

    crowd: Crowd
    size: int
    output: bool | None
    chance: Number


@dataclass(frozen=True)
class After:
    """Of the crowd after some meetings: the chance of each, the likeliest first, of each output, and of an end so
    far."""

    meetings: int
    crowds: list[tuple[Crowd, Number]]
    outputs: Chances
    ended: Number


@dataclass(frozen=True, kw_only=True)
class Answer:
    """Of one input. `ends` are the likeliest first, and `terminal` is the chance of a terminal crowd.

    `mean`, `variance` and `deviation` are of the meetings until a closed class is entered; the variance is known in
    fractions alone.
    """

    agents: int
    crowds: int
    steps: int
    ends: list[End]
    terminal: Number
    outputs: Chances
    mean: Number
    deviation: float
    variance: Fraction | None = None
    after: After | None = None

    @property
    def is_mixed(self) -> bool:
        """Whether some executions come to a terminal crowd, and others never do."""
        return 0 < self.terminal and any(end.size > 1 for end in self.ends)

    @property
    def mean_to_end(self) -> Number:
        """The mean number of meetings to a terminal crowd, infinite where one is reached by some executions alone; to
        a closed class where there is no terminal crowd."""
        return inf if self.is_mixed else self.mean
