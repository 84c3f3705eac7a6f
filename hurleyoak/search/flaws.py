"""What is said of an input that a protocol gets wrong, and of what was tried without finding one."""
from __future__ import annotations

from dataclasses import dataclass, field
from enum import StrEnum

from ..protocol.nets import Leaf
from .whole import Word

Crowd = tuple[int, ...]


class FlawKind(StrEnum):
    """What is wrong with a crowd on the way from an input."""

    WRONG = "wrong"
    ENDLESS = "endless"
    RESTLESS = "restless"


WRONG, ENDLESS, RESTLESS = FlawKind.WRONG, FlawKind.ENDLESS, FlawKind.RESTLESS
ROUND_SHOWN = 12  # crowds that go round


@dataclass(kw_only=True)
class Flaw:
    """A crowd on the way from an input that is terminal and wrong, or from which no terminal crowd is reached; then
    `round` are crowds that go round. `by_meetings` says whether meetings alone lead there.

    If none is reached, the outputs tell two kinds apart. ENDLESS: they don't come to rest at the predicate's value.
    RESTLESS: they have come to rest there, and the protocol is stable without being silent. `size` is the number of
    the input's crowds. `leaf` has the names of what was explored, a leaf or a whole net. `words` says which states of
    the leaves each of its states means. `hidden` are the moves on the way that no meeting takes.
    """

    kind: FlawKind
    counts: tuple[int, ...]
    crowd: Crowd
    moves: list[int]
    by_meetings: bool
    round: list[Crowd] = field(default_factory=list)
    size: int = 0
    leaf: Leaf | None = None
    words: list[Word] = field(default_factory=list)
    hidden: list[int] = field(default_factory=list)


@dataclass
class Tried:
    """What was tried without a flaw: up to how many agents in full, how many inputs and crowds in all. `met` counts the
    inputs that meet what is assumed, those of too many crowds among them. `restless` is the first crowd whose outputs
    are at rest while its agents change forever."""

    agents: int = 0
    met: int = 0
    inputs: int = 0
    crowds: int = 0
    restless: Flaw | None = None
