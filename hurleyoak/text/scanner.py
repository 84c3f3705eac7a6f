"""Lines of a `.pop` file, read character by character, with faults that name line, column and what was expected."""
from __future__ import annotations

import re
from dataclasses import dataclass
from typing import Callable

from ..faults import InputFault
from ..protocol.naming import PLAIN
from ..wholes import whole_of

QUOTED_LENGTH, QUOTED_BEFORE = 200, 60  # of a longer line a part is quoted, so much of it before the column
GUIDES = " \t│├└─"
WORD = re.compile(r"[A-Za-z_][A-Za-z0-9_.]*")
NUMBER = re.compile(r"[0-9]+")
_CONTINUES = re.compile(r"(?:[+,]|-(?=[ \t]))")
_QUOTED = re.compile(r'"((?:[^"\\]|\\["\\])*)"')


class TextFault(Exception):
    """A `.pop` text is malformed: the line and column, counted from 1, and what was expected there."""

    def __init__(self, line: int, column: int, told: str, quoted: str) -> None:
        super().__init__(f"line {line}, column {column}: {told}")
        self.line, self.column, self.told, self.quoted = line, column, told, quoted

    def shown(self, name: str = "") -> str:
        """The fault over three lines: where and what, the line, and a caret below the column."""
        cut = 0 if len(self.quoted) <= QUOTED_LENGTH else max(0, self.column - 1 - QUOTED_BEFORE)
        shown = self.quoted[cut : cut + QUOTED_LENGTH]
        lead = "".join("\t" if c == "\t" else " " for c in shown[: self.column - 1 - cut])
        return f"{name}{':' if name else ''}{self.line}:{self.column}: {self.told}\n    {shown}\n    {lead}^"

    def of_input(self, name: str) -> InputFault:
        """The fault of an input that is called so."""
        return InputFault(self.shown(name), self.line, self.column, self.told, self.quoted)


@dataclass
class Place:
    """A place in the text, kept for what is said later of what stands there."""

    line: int
    column: int
    quoted: str

    def fault(self, told: str) -> TextFault:
        """A fault at this place."""
        return TextFault(self.line, self.column, told, self.quoted)


class Line:
    """One line without its comment, and how far it is read. A line that continues it is read on with its own
    places."""

    def __init__(self, number: int, whole: str) -> None:
        self.number, self.whole = number, whole
        text = without_comment(whole)
        body = text.lstrip(GUIDES)
        self.indent = len(text) - len(body)
        self.end = len(text.rstrip())
        self.at = self.indent
        self.more: list[Line] = []

    def place(self) -> Place:
        """The place that is read next."""
        return Place(self.number, self.at + 1, self.whole)

    def start(self) -> Place:
        """The place at which the line begins to say something."""
        return Place(self.number, self.indent + 1, self.whole)

    def fault(self, expected: str) -> TextFault:
        """What was expected here, and what stands here."""
        self.skip()
        rest = self.whole[self.at : self.end]
        if not rest:
            return self.place().fault(f"expected {expected}, and the line ends here")
        found = PLAIN.match(rest)
        return self.place().fault(f"expected {expected}, found `{found.group() if found else rest[0]}`")

    def skip(self) -> None:
        """Passes over blanks, and on to a line that continues this one."""
        while True:
            while self.at < self.end and self.whole[self.at] in " \t":
                self.at += 1
            if self.at < self.end or not self.more:
                return
            following = self.more.pop(0)
            self.number, self.whole, self.end, self.at = (
                following.number,
                following.whole,
                following.end,
                following.indent,
            )

    def is_done(self) -> bool:
        """Whether all of it is read."""
        self.skip()
        return self.at >= self.end

    def looking_at(self, text: str) -> bool:
        """Whether this text comes next."""
        self.skip()
        return self.whole.startswith(text, self.at, self.end)

    def takes(self, *texts: str) -> str:
        """Reads the first of the texts that comes next; the empty text where none does."""
        for text in texts:
            if self.looking_at(text):
                self.at += len(text)
                return text
        return ""

    def needs(self, text: str, expected: str = "") -> None:
        """Reads the text, or fails."""
        if not self.takes(text):
            raise self.fault(expected or f"`{text}`")

    def matches(self, pattern: re.Pattern[str]) -> str | None:
        """Reads what matches the pattern next, if something does."""
        self.skip()
        found = pattern.match(self.whole, self.at, self.end)
        if found is None:
            return None
        self.at = found.end()
        return found.group()

    def name(self, expected: str) -> str:
        """Reads a state's name, plain or in quotes, or fails."""
        self.skip()
        quoted = _QUOTED.match(self.whole, self.at, self.end)
        if quoted:
            self.at = quoted.end()
            return re.sub(r"\\(.)", r"\1", quoted.group(1))
        found = self.matches(PLAIN)
        if found is None:
            raise self.fault(expected)
        return found

    def number_(self, expected: str) -> int:
        """Reads a whole number with a sign that may be there, or fails."""
        sign = -1 if self.takes("-") else 1
        found = self.matches(NUMBER)
        if found is None:
            raise self.fault(expected)
        return sign * whole_of(found)

    def rest(self) -> tuple[str, Place]:
        """Reads all that is left of the line, and tells where it began."""
        self.skip()
        place = self.place()
        text = self.whole[self.at : self.end]
        self.at = self.end
        return text, place

    def must_end(self) -> None:
        """Fails unless all of it is read."""
        if not self.is_done():
            raise self.fault("the end of the line")


def without_comment(text: str) -> str:
    """A line up to the `#` that begins its comment; a `#` in quotes begins none."""
    if "#" not in text:
        return text
    if '"' not in text:
        return text[: text.index("#")]
    inside = escaped = False
    for at, c in enumerate(text):
        if escaped:
            escaped = False
        elif inside and c == "\\":
            escaped = True
        elif c == '"':
            inside = not inside
        elif c == "#" and not inside:
            return text[:at]
    return text


Source = Callable[[int], int]  # from the number of a line to that of the line that it comes from


def as_they_are(line: int) -> int:
    """The source of lines that come from no others."""
    return line


def lines_of(text: str, source: Source = as_they_are) -> list[Line]:
    """The lines that say something, numbered as those that they come from; one that begins with `+`, `,` or `- ` goes
    on with the one before."""
    out: list[Line] = []
    for number, raw in enumerate(text.split("\n"), start=1):
        line = Line(source(number), raw.rstrip("\r"))
        if line.at >= line.end:
            continue
        if out and _CONTINUES.match(line.whole, line.indent):
            out[-1].more.append(line)
        else:
            out.append(line)
    return out
