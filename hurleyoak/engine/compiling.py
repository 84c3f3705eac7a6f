"""The bundle of a predicate: the program's own, or a succinct one of the workbench that the program has certified."""
from __future__ import annotations

import json
from dataclasses import dataclass, field
from enum import Enum
from functools import cached_property
from typing import Sequence

from ..compiler.drafts import NotBuilt
from ..compiler.whole import Compiled, Helpers, compiled
from ..proof.bundles import bundle_of
from ..protocol.nets import Net
from ..protocol.predicatereader import read_predicate
from ..statuses import DONE
from .claims import NO_CLAIM, Claim
from .program import Answer, ask, check

# refusals for the size of what would be built: another leaf may be small enough
SIZE_FAULTS = ("fault: width", "fault: atoms", "fault: wide", "fault: range", "fault: states")


class Way(Enum):
    """Whose leaves are wanted."""

    SMALLEST = "the program's own, or succinct ones where these have fewer states"
    SUCCINCT = "succinct ones"
    PLAIN = "the program's own"
    FLOCKS = "the program's own, with its flocks"
    QUICK = "those of the workbench, in which callers tell the answer and tokens join"


# the ways by their names, as the page and the library take them
NAMES = {way.name.lower(): way for way in Way}
WORDS = {Way.PLAIN: ["compile"], Way.FLOCKS: ["compile", "--flocks"], Way.SUCCINCT: ["compile", "--succinct"]}
CALLS = {Way.PLAIN: "compile", Way.FLOCKS: "compile_flocks", Way.SUCCINCT: "compile_succinct"}
BY_THEOREM = "made by the program: every net of `{}` in `comp_net` is right, by the theorem `Compiles.right`"
BY_CHECK = "made by the workbench: no theorem is about what it makes, and the program certified this one"


@dataclass(frozen=True)
class Made:
    """The program's answer: with status DONE its text is the bundle. `told` says what was made, for a reader; `claim`
    is what the program claims of it, where it was asked."""

    answer: Answer
    told: list[str] = field(default_factory=list)
    claim: Claim = NO_CLAIM


class NotCertified(Exception):
    """The program didn't certify what the workbench made: a mistake of the workbench."""


def _count(number: int, word: str) -> str:
    return f"{number} {word}" if number == 1 else f"{number} {word}s"


def _size(states: int, moves: int) -> str:
    return f"{_count(states, 'state')}, {_count(moves, 'move')}"


def _size_of(net: Net) -> tuple[int, int, int]:
    """How many states, moves and helpers a net has."""
    leaves = net.leaves
    return sum(len(leaf.states) for leaf in leaves), sum(len(leaf.moves) for leaf in leaves), len(leaves[0].helpers)


def _helpers_told(helpers: int) -> str:
    """What helpers mean for a crowd."""
    if not helpers:
        return "no helpers: a crowd has the agents of its variables alone"
    return f"{_count(helpers, 'helper')} in every input: a crowd of n agents from the variables has n + {helpers}"


def kinds_told(made: Compiled) -> list[str]:
    """Which leaf each atom has, and what helpers mean for a crowd."""
    net = made.bundle.net
    lines = [
        f"`{part.pred}`: {kind.value}; {_size(len(leaf.states), len(leaf.moves))}"
        for part, leaf, kind in zip(made.bundle.proof, net.leaves, made.kinds)
    ]
    return [*lines, _helpers_told(made.helpers)]


def _own_told(line: str) -> list[str]:
    """The same of a succinct bundle that the program made."""
    bundle = json.loads(line)
    leaves = bundle["net"]["leaves"]
    lines = [
        f"`{part['pred']}`: {_size(len(leaf['states']), len(leaf['moves']))}"
        for part, leaf in zip(bundle["proof"], leaves)
    ]
    return [*lines, _helpers_told(len(leaves[0].get("helpers", [])))]


def _certified(made: Compiled) -> Made:
    line = made.bundle.line()
    answer = check(line)
    if not answer.claim.is_certified:
        raise NotCertified(f"the succinct net of `{made.bundle.pred}` isn't certified: {answer.first_line}")
    told = [*kinds_told(made), BY_CHECK, f"the program says: {answer.first_line}"]
    return Made(Answer(line + "\n", DONE), told, answer.claim)


def make_bundle(names: Sequence[str], form: str, way: Way = Way.SMALLEST, helpers: Helpers = Helpers.ANY) -> Made:
    """The bundle of a predicate in the program's grammar.

    NotBuilt where succinct leaves are wanted and none fits; a refusal of the program is an answer as any other.
    """
    own = None
    if helpers is not Helpers.NONE and way is not Way.QUICK:
        own = _own(names, form, way)
        if way in (Way.PLAIN, Way.FLOCKS) or not (own.status == DONE or own.text.startswith(SIZE_FAULTS)):
            return Made(own.answer)
    try:
        made = compiled(read_predicate(form, names), names, helpers)
    except NotBuilt:
        if own is None or own.status != DONE:
            raise
        return Made(own.answer, own.told())
    size = _size_of(made.bundle.net)
    if own is not None and own.status == DONE and own.states <= size[0]:
        return Made(own.answer, own.told())
    if way is Way.SMALLEST and (same := _proved(names, form)) and same.size == size:
        return Made(same.answer, same.told())
    return _certified(made)


@dataclass(frozen=True)
class _Own:
    """What the program answered to one of its ways to compile."""

    way: Way
    answer: Answer

    @property
    def status(self) -> int:
        """The program's status."""
        return self.answer.status

    @property
    def text(self) -> str:
        """What it printed."""
        return self.answer.text

    @cached_property
    def size(self) -> tuple[int, int, int]:
        """How many states, moves and helpers the net has."""
        return _size_of(bundle_of(json.loads(self.answer.first_line)).net)

    @property
    def states(self) -> int:
        """How many states it has."""
        return self.size[0]

    def told(self) -> list[str]:
        """Which leaves there are, and who says that they are right."""
        return [*_own_told(self.answer.first_line), BY_THEOREM.format(CALLS[self.way])]


def _proved(names: Sequence[str], form: str) -> _Own | None:
    """The program's succinct net, if it makes one: where it is the workbench's but for names, its theorem is there."""
    own = _Own(Way.SUCCINCT, ask(WORDS[Way.SUCCINCT], _request(names, form)))
    return own if own.status == DONE else None


def _request(names: Sequence[str], form: str) -> str:
    return f"vars {' '.join(names)}\n{form}\n"


def _own(names: Sequence[str], form: str, way: Way) -> _Own:
    """The program's net: of two that it makes the one with fewer states; where it makes none, its refusal."""
    text = _request(names, form)
    ways = (Way.SUCCINCT, Way.PLAIN) if way is Way.SUCCINCT else (Way.PLAIN if way is Way.SMALLEST else way,)
    found = [_Own(one, ask(WORDS[one], text)) for one in ways]
    made = [one for one in found if one.status == DONE]
    return min(made, key=lambda one: one.states) if made else found[0]
