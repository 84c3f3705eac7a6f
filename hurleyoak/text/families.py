"""Families of protocols: a `.pop` text with parameters and loops, made into the text of one member.

    family m in 2..20

    for i in 0..m-1, j in i..m-1
      N{i} + N{j} -> N{(i + j) % m} + f
    states  f t [N{i} for i in 0..m-1]

`family` names a parameter and its values; a file may have several. `for` repeats the lines that stand deeper, and
brackets repeat a part of a line. `{..}` is a number (familysums). In braces with any other name nothing is changed, so
that sets of states stay sets, and neither is a comment.
"""
from __future__ import annotations

import re
from dataclasses import dataclass
from itertools import product
from typing import Iterator

from ..wholes import whole_of
from .familysums import CALLS, NoSum, Values, holds, number_of
from .scanner import TextFault, without_comment

LINE_LIMIT = 200_000  # lines that a member may have
ROUND_LIMIT = 1_000_000  # rounds of its loops, with those that make nothing
TEXT_LIMIT = 1 << 24  # characters that it may have
DEPTH_LIMIT = 16  # loops in one another, and names of one loop
MEMBER_LIMIT = 10_000

_FAMILY = re.compile(r"family\s+([A-Za-z_]\w*)\s+in\s+(.+)", re.ASCII)
_FOR = re.compile(r"for\s+(.+)")
_RANGE = re.compile(r"\s*([A-Za-z_]\w*)\s+in\s+(.+?)\.\.(.+?)\s*", re.ASCII)
_BRACES = re.compile(r"\{([^{}]*)\}")
_BRACKETS = re.compile(r"\[([^\[\]]*?)\s+for\s+([^\[\]]*)\]")
_NAMES = re.compile(r"[A-Za-z_]\w*")
_IF = re.compile(r"\sif(?=\s|$)")


@dataclass(frozen=True)
class Member:
    """The text of a member, and for each of its lines the number of the line of the family that it comes from."""

    text: str
    sources: list[int]

    def source(self, line: int) -> int:
        """The line of the family's text that a line comes from."""
        return self.sources[line - 1] if 0 < line <= len(self.sources) else line

    def back(self, fault: TextFault) -> TextFault:
        """The fault at its place in the family's text."""
        return TextFault(self.source(fault.line), fault.column, fault.told, fault.quoted)


class _Made:
    """How much of a member was made so far; NoSum where that is over a limit."""

    def __init__(self) -> None:
        self.lines = self.rounds = self.characters = 0

    def line(self, text: str) -> None:
        """One more line."""
        self.lines += 1
        if self.lines > LINE_LIMIT:
            raise NoSum(f"the member has over {LINE_LIMIT} lines")
        self.part(text)

    def part(self, text: str) -> None:
        """So much more of a text."""
        self.characters += len(text)
        if self.characters > TEXT_LIMIT:
            raise NoSum(f"the member has over {TEXT_LIMIT} characters")

    def round(self) -> None:
        """One more round of a loop."""
        self.rounds += 1
        if self.rounds > ROUND_LIMIT:
            raise NoSum(f"the loops of the member go round over {ROUND_LIMIT} times")


def _heads(text: str) -> list[str]:
    """The parts of `i in 0..min(m, k), j in i..m`: a comma in parentheses parts nothing."""
    out, depth = [""], 0
    for sign in text:
        depth += (sign == "(") - (sign == ")")
        if sign == "," and depth <= 0:
            out.append("")
        else:
            out[-1] += sign
    return out


def _loops(text: str, values: Values, made: _Made) -> Iterator[Values]:
    """The values of the names in `i in 0..m-1, j in i..m-1 if i < j`."""
    found = _IF.search(text)
    heads, condition = (text[: found.start()], text[found.end() :]) if found else (text, None)
    if condition is not None and not condition.strip():
        raise NoSum("a condition is missing after `if`, as in `if i < j`", text)
    parts = _heads(heads)
    if len(parts) > DEPTH_LIMIT:
        raise NoSum(f"a loop has at most {DEPTH_LIMIT} names", text)
    yield from _nested(parts, condition, dict(values), made)


def _nested(heads: list[str], condition: str | None, values: Values, made: _Made) -> Iterator[Values]:
    if not heads:
        if condition is None or holds(condition, values):
            yield values
        return
    found = _RANGE.fullmatch(heads[0])
    if found is None:
        raise NoSum(f"`{heads[0].strip()}` is no range, as in `i in 0..m-1`", heads[0])
    low, high = (number_of(found[k], values) for k in (2, 3))
    if high - low > LINE_LIMIT:
        raise NoSum(f"a loop goes over {high - low + 1} numbers; at most {LINE_LIMIT} lines are made", heads[0])
    for number in range(low, high + 1):
        made.round()
        yield from _nested(heads[1:], condition, {**values, found[1]: number}, made)


def _filled(line: str, values: Values, made: _Made) -> str:
    """A line with the numbers in the place of the braces."""

    def part(found: re.Match[str]) -> str:
        names = set(_NAMES.findall(found[1])) - set(CALLS)
        if not found[1].strip() or not names <= set(values):
            return found[0]
        return str(number_of(found[1], values))

    def again(text: str, inner: Values) -> str:
        filled = _filled(text, inner, made)
        made.part(filled)
        return filled

    def repeated(found: re.Match[str]) -> str:
        return " ".join(again(found[1], inner) for inner in _loops(found[2], values, made))

    return _BRACES.sub(part, _BRACKETS.sub(repeated, line))


def _body(lines: list[tuple[int, str]], at: int) -> tuple[list[tuple[int, str]], int]:
    """The lines behind a `for` that stand deeper, as deep as the `for` itself, and the number of the next line."""
    depth = len(lines[at][1]) - len(lines[at][1].lstrip())
    end = at + 1
    while end < len(lines) and (not lines[end][1].strip() or len(lines[end][1]) - len(lines[end][1].lstrip()) > depth):
        end += 1
    while end > at + 1 and not lines[end - 1][1].strip():
        end -= 1
    body = lines[at + 1 : end]
    inner = min((len(text) - len(text.lstrip()) for _, text in body if text.strip()), default=depth)
    return [(number, text[inner - depth :] if text.strip() else text) for number, text in body], end


def _expanded(lines: list[tuple[int, str]], values: Values, made: _Made, depth: int = 0) -> Iterator[tuple[int, str]]:
    at = 0
    while at < len(lines):
        number, text = lines[at]
        said = without_comment(text)
        try:
            if found := _FOR.fullmatch(said.strip()):
                if depth == DEPTH_LIMIT:
                    raise NoSum(f"at most {DEPTH_LIMIT} loops stand in one another")
                body, at = _body(lines, at)
                for inner in _loops(found[1], values, made):
                    yield from _expanded(body, inner, made, depth + 1)
                continue
            filled = _filled(said, values, made) + text[len(said) :]
            made.line(filled)
        except NoSum as why:
            raise _fault(number, text, why) from None
        yield number, filled
        at += 1


def _fault(number: int, text: str, why: NoSum) -> TextFault:
    """The fault at its part of the line, or where the line begins to say something."""
    part = why.part.strip()
    at = text.find(part) if part else -1
    return TextFault(number, 1 + (at if at >= 0 else len(text) - len(text.lstrip())), str(why), text)


def _family(line: str) -> re.Match[str] | None:
    """What a line `family` says, where it is one."""
    return _FAMILY.fullmatch(without_comment(line).strip())


def parameters(text: str) -> dict[str, range]:
    """The parameters of a family with their values; none where the text is of a single protocol."""
    out: dict[str, range] = {}
    for number, line in enumerate(text.split("\n"), start=1):
        found = _family(line)
        if found is None:
            continue
        low, dots, high = found[2].partition("..")
        try:
            first = number_of(low, {})
            out[found[1]] = range(first, (number_of(high, {}) if dots else first) + 1)
        except NoSum as why:
            raise _fault(number, line, NoSum(f"{why}; a family is written as `family m in 2..20`", why.part)) from None
    return out


def of_family(fault: TextFault, text: str) -> TextFault:
    """A fault of a family that is read as one protocol: it says how a member is chosen. Others stay as they are."""
    for number, line in enumerate(text.split("\n"), start=1):
        found = _family(line)
        if found is not None:
            told = f"this is a family of protocols: `pop text FILE --with {found[1]}=..` writes one of them"
            return TextFault(number, 1, told, line)
    return fault


def members(text: str) -> list[dict[str, int]]:
    """The values of the parameters for each member, the first parameter slowest."""
    found = parameters(text)
    if not found:
        return []
    count = 1
    for values in found.values():
        count *= max(0, values.stop - values.start)
    if not 0 < count <= MEMBER_LIMIT:
        raise TextFault(
            1, 1, f"the family has {count} members; it may have 1 to {MEMBER_LIMIT}", text.split("\n", 1)[0]
        )
    return [dict(zip(found, chosen)) for chosen in product(*found.values())]


def member(text: str, values: Values) -> Member:
    """The text of one member."""
    lines = [(number, line) for number, line in enumerate(text.split("\n"), start=1) if not _family(line)]
    made = list(_expanded(lines, values, _Made()))
    return Member("\n".join(line for _, line in made), [number for number, _ in made])


def member_name(values: Values) -> str:
    """How a member is called: `m=7 c=2`."""
    return " ".join(f"{name}={value}" for name, value in values.items())


def values_of(name: str) -> dict[str, int]:
    """The values that a name of a member has."""
    return {word.partition("=")[0]: whole_of(word.partition("=")[2]) for word in name.split()}
