"""Nets of docs/reference/formats.md: leaves that run side by side, and the rules of the net file.

The definitions are those of docs/trust/model.md (Angluin and others 2006; Blondin, Esparza, Jaax and Meyer 2017).
"""
from __future__ import annotations

import json
import re
from dataclasses import dataclass, field
from functools import cached_property
from typing import Any, Callable, Sequence, Union

from ..limits import DEPTH_LIMIT as DEPTH_LIMIT
from ..limits import HELPER_LIMIT as HELPER_LIMIT
from ..limits import ITEM_LIMIT as COMBINE_LIMIT
from ..limits import LEAF_LIMIT as LEAF_LIMIT
from ..limits import MOVE_LIMIT as MOVE_LIMIT
from ..limits import NAME_LIMIT as NAME_LIMIT
from ..limits import NARROW_STATE_LIMIT as NARROW_STATES
from ..limits import STATE_LIMIT as STATE_LIMIT
from ..limits import VARIABLE_LIMIT as VARIABLE_LIMIT
from ..limits import WIDE_LEAF_LIMIT as WIDE_LEAVES
from .laws import Law

WHOLE_LIMIT = 1 << 63

Move = tuple[int, int, int, int]
Item = Union[int, str]

VARIABLE_NAME = re.compile(r"[A-Za-z_][A-Za-z0-9_]*")
STATE_NAME = re.compile(r"[!-.0-~]+")
NO_BYTE = re.compile("[\ud800-\udc7f\udd00-\udfff]")  # surrogates that stand for no byte of a file


class FormatFault(Exception):
    """A value breaks a rule of the files: the path, and the program's word for why."""

    def __init__(self, path: str, why: str) -> None:
        super().__init__(f"fault: format {path} {why}")
        self.path, self.why = path, why


def pair(p: int, q: int) -> tuple[int, int]:
    """Two states, whichever comes first."""
    return (p, q) if p <= q else (q, p)


def is_silent(move: Move) -> bool:
    """Whether a move leaves the two states as they are, or swaps them."""
    return pair(move[0], move[1]) == pair(move[2], move[3])


@dataclass(frozen=True)
class Leaf:
    """One population protocol; states, moves and variables count from 0. `laws` has one for each move, or none at
    all."""

    states: tuple[str, ...]
    moves: tuple[Move, ...]
    inputs: tuple[int, ...]
    outputs: tuple[bool, ...]
    helpers: tuple[int, ...] = ()
    laws: tuple[Law, ...] = field(default=(), compare=False)

    @cached_property
    def active(self) -> tuple[int, ...]:
        """The numbers of the moves that are not silent."""
        return tuple(t for t, move in enumerate(self.moves) if not is_silent(move))

    @cached_property
    def active_set(self) -> frozenset[int]:
        """The same numbers as a set."""
        return frozenset(self.active)

    @cached_property
    def is_single(self) -> bool:
        """Whether no two of its moves that change something take the same two states."""
        moves = {self.moves[t] for t in self.active}
        return len({pair(*move[:2]) for move in moves}) == len(moves)

    @cached_property
    def partners(self) -> tuple[frozenset[int], ...]:
        """For each state those that it reacts with, itself among them where two of it react."""
        out: list[set[int]] = [set() for _ in self.states]
        for t in self.active:
            p, q = self.moves[t][:2]
            out[p].add(q)
            out[q].add(p)
        return tuple(frozenset(states) for states in out)

    @cached_property
    def helper_counts(self) -> tuple[int, ...]:
        """How many helpers start in each state."""
        out = [0] * len(self.states)
        for q in self.helpers:
            out[q] += 1
        return tuple(out)

    def change(self, t: int) -> dict[int, int]:
        """How many agents move t puts into each state less how many it takes; states without change are left out."""
        p, q, r, s = self.moves[t]
        out: dict[int, int] = {}
        for state, k in ((r, 1), (s, 1), (p, -1), (q, -1)):
            out[state] = out.get(state, 0) + k
        return {state: k for state, k in out.items() if k}


@dataclass(frozen=True)
class Net:
    """Leaves side by side on the same agents, and the combination of their outputs in postfix."""

    names: tuple[str, ...]
    leaves: tuple[Leaf, ...]
    combine: tuple[Item, ...]
    format: int = 1
    ignored_helpers: bool = field(default=False, compare=False)

    def value(self) -> dict[str, Any]:
        """The JSON value of the net file."""
        leaves: list[dict[str, Any]] = []
        for leaf in self.leaves:
            made: dict[str, Any] = {
                "states": list(leaf.states),
                "moves": [list(m) for m in leaf.moves],
                "input": list(leaf.inputs),
                "output": list(leaf.outputs),
            }
            if self.format == 2:
                made["helpers"] = list(leaf.helpers)
            leaves.append(made)
        return {"format": self.format, "vars": list(self.names), "leaves": leaves, "combine": list(self.combine)}


def compact(value: Any) -> str:
    """JSON on one line as the tool writes it: no blanks, members in the byte order of their names, and escapes for
    surrogates that stand for no byte."""
    text = json.dumps(value, separators=(",", ":"), sort_keys=True, ensure_ascii=False)
    return NO_BYTE.sub(lambda found: f"\\u{ord(found[0]):04x}", text)


def whole(value: Any, path: str, low: int = -WHOLE_LIMIT, high: int = WHOLE_LIMIT - 1) -> int:
    """A whole number within limits, or a FormatFault."""
    if isinstance(value, bool) or not isinstance(value, int) or not -WHOLE_LIMIT <= value < WHOLE_LIMIT:
        raise FormatFault(path, "kind")
    if not low <= value <= high:
        raise FormatFault(path, "range")
    return value


def items(value: Any, path: str, low: int, high: int) -> list[Any]:
    """A list whose length is within limits, or a FormatFault."""
    if not isinstance(value, list):
        raise FormatFault(path, "kind")
    if not low <= len(value) <= high:
        raise FormatFault(path, "range")
    return value


def member(value: Any, name: str, path: str) -> Any:
    """A member of an object, or a FormatFault at its path."""
    if not isinstance(value, dict):
        raise FormatFault(path, "kind")
    if name not in value:
        raise FormatFault(f"{path}/{name}", "kind")
    return value[name]


def _names(value: Any, path: str, limit: int, is_name: Callable[[str], bool]) -> tuple[str, ...]:
    out: list[str] = []
    for i, text in enumerate(items(value, path, 1, limit)):
        if not isinstance(text, str):
            raise FormatFault(f"{path}/{i}", "kind")
        if not is_name(text) or text in out:
            raise FormatFault(f"{path}/{i}", "name")
        out.append(text)
    return tuple(out)


def is_variable_name(text: str) -> bool:
    """1 to 32 letters, digits and `_`, no digit first, and not `mod`."""
    return len(text) <= NAME_LIMIT and text != "mod" and VARIABLE_NAME.fullmatch(text) is not None


def is_state_name(text: str) -> bool:
    """1 to 32 printed ASCII characters, without blanks and `/`."""
    return len(text) <= NAME_LIMIT and STATE_NAME.fullmatch(text) is not None


def _states(value: Any, path: str, count: int, low: int, high: int) -> tuple[int, ...]:
    return tuple(whole(q, f"{path}/{i}", 0, count - 1) for i, q in enumerate(items(value, path, low, high)))


def _move(value: Any, path: str, count: int) -> Move:
    if not isinstance(value, list) or len(value) != 4:
        raise FormatFault(path, "kind")
    p, q, r, s = (whole(state, f"{path}/{i}", 0, count - 1) for i, state in enumerate(value))
    return p, q, r, s


def _leaf(value: Any, path: str, variables: int, form: int, helpers: int | None) -> Leaf:
    if not isinstance(value, dict):
        raise FormatFault(path, "kind")
    states = _names(member(value, "states", path), f"{path}/states", STATE_LIMIT, is_state_name)
    n = len(states)
    moves = items(member(value, "moves", path), f"{path}/moves", 0, MOVE_LIMIT)
    read = tuple(_move(m, f"{path}/moves/{i}", n) for i, m in enumerate(moves))
    inputs = _states(member(value, "input", path), f"{path}/input", n, variables, variables)
    outputs = items(member(value, "output", path), f"{path}/output", n, n)
    for i, b in enumerate(outputs):
        if not isinstance(b, bool):
            raise FormatFault(f"{path}/output/{i}", "kind")
    standing: tuple[int, ...] = ()
    if form == 2:
        low, high = (0, HELPER_LIMIT) if helpers is None else (helpers, helpers)
        standing = _states(member(value, "helpers", path), f"{path}/helpers", n, low, high)
    return Leaf(states, read, inputs, tuple(outputs), standing)


def _combine(value: Any, leaves: int) -> tuple[Item, ...]:
    depths: list[int] = []
    for i, item in enumerate(items(value, "/combine", 1, COMBINE_LIMIT)):
        path = f"/combine/{i}"
        if isinstance(item, str):
            if item not in ("not", "and", "or"):
                raise FormatFault(path, "name")
            taken = 1 if item == "not" else 2
            if len(depths) < taken:
                raise FormatFault(path, "shape")
            depth = 1 + max(depths[-taken:])
            del depths[-taken:]
        else:
            whole(item, path, 0, leaves - 1)
            depth = 1
        if depth > DEPTH_LIMIT:
            raise FormatFault(path, "shape")
        depths.append(depth)
    if len(depths) != 1:
        raise FormatFault("/combine", "shape")
    return tuple(value)


def net_of(value: Any) -> Net:
    """The net of a JSON value, or the FormatFault that the program names first."""
    form = whole(member(value, "format", ""), "/format", 1, 2)
    names = _names(member(value, "vars", ""), "/vars", VARIABLE_LIMIT, is_variable_name)
    leaves: list[Leaf] = []
    ignored = False
    for i, part in enumerate(items(member(value, "leaves", ""), "/leaves", 1, LEAF_LIMIT)):
        helpers = len(leaves[0].helpers) if leaves else None
        leaves.append(_leaf(part, f"/leaves/{i}", len(names), form, helpers))
        ignored |= form == 1 and bool(part.get("helpers"))
    combine = _combine(member(value, "combine", ""), len(leaves))
    wide = [i for i, leaf in enumerate(leaves) if len(leaf.states) > NARROW_STATES]
    if wide and len(leaves) > WIDE_LEAVES:
        raise FormatFault(f"/leaves/{wide[0]}", "shape")
    return Net(names, tuple(leaves), combine, form, ignored)


def combined(combine: Sequence[Item], values: Sequence[bool]) -> bool:
    """The net's output where the leaves say these values."""
    stack: list[bool] = []
    for item in combine:
        if isinstance(item, int):
            stack.append(values[item])
        elif item == "not":
            stack.append(not stack.pop())
        else:
            right, left = stack.pop(), stack.pop()
            stack.append((left and right) if item == "and" else (left or right))
    return stack[0]
