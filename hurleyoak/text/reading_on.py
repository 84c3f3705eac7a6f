"""All that is wrong with a `.pop` text: after a fault the reading goes on without the line that has it.

What follows from a line that was left out is not told: so a fault of the whole leaf, or of a line on which others
rest, ends the reading.
"""
from __future__ import annotations

from typing import Callable, Iterator

from .files import load_pop
from .netreader import make_net, predicate_at
from .popfile import read_sections
from .popsections import FILE_WORDS, LEAF_WORDS, PopText
from .scanner import WORD, Line, TextFault, lines_of

MOST_FAULTS = 30
LONG_TEXT = 200_000  # signs of a text, above which the first fault alone is told
PROOF_WORDS = ("layers", "layer", "when")
OUTPUT_WORDS = ("yes", "no")
PREDICATE_WORDS = ("computes", "predicate")
MOVE = ""
# lines without which the others can be read as they are meant
FREE = (MOVE, *OUTPUT_WORDS, *PREDICATE_WORDS, *PROOF_WORDS)


def _word(line: Line) -> str:
    """The keyword that a line begins with; empty for a move."""
    found = WORD.match(line.whole, line.indent)
    return found.group() if found and found.group() in FILE_WORDS + LEAF_WORDS else MOVE


class _Text:
    """A text from which lines are taken."""

    def __init__(self, text: str) -> None:
        self.rows = text.split("\n")
        self.owner: dict[int, int] = {}  # the line that says something, by each of the rows that it has
        self.lines = lines_of(text)
        for at, line in enumerate(self.lines):
            for number in (line.number, *(more.number for more in line.more)):
                self.owner[number] = at

    def __str__(self) -> str:
        return "\n".join(self.rows)

    def is_empty(self) -> bool:
        """Whether no line is left that says something."""
        return not lines_of(str(self))

    def word(self, fault: TextFault) -> str | None:
        """The keyword above the place of a fault; None where no line is there."""
        at = self.owner.get(fault.line)
        return None if at is None else _word(self.lines[self.head(at)])

    def head(self, at: int) -> int:
        """The line of the proof's part below which a line stands, or that line itself."""
        indent = self.lines[at].indent
        for above in reversed(range(at)):
            if self.lines[above].indent < indent:
                indent = self.lines[above].indent
                if _word(self.lines[above]) in PROOF_WORDS:
                    return above
        return at

    def _blank(self, at: int, text: str = "") -> None:
        line = self.lines[at]
        for number in (line.number, *(more.number for more in line.more)):
            self.rows[number - 1] = ""
        self.rows[line.number - 1] = text

    def leave_out(self, fault: TextFault) -> bool:
        """Takes the line of a fault away; of a proof's head with all that stands below it. Outputs stay for all
        states, unless that has a fault too. False where the line was away before."""
        at = self.owner[fault.line]
        word = _word(self.lines[at])
        row = self.rows[self.lines[at].number - 1]
        every = f"{word} *" if word in OUTPUT_WORDS else ""
        self._blank(at, "" if row == every else every)
        if word in PROOF_WORDS:
            self._leave_below(at)
        return row != ""

    def _leave_below(self, at: int) -> None:
        for below in range(at + 1, len(self.lines)):
            if self.lines[below].indent <= self.lines[at].indent:
                return
            self._blank(below)

    def leave_part(self, fault: TextFault) -> bool:
        """Takes the part of the proof away in which the fault stands. False where it was away before."""
        at = self.head(self.owner[fault.line])
        row = self.rows[self.lines[at].number - 1]
        self._blank(at)
        self._leave_below(at)
        return row != ""

    def leave(self, words: tuple[str, ...]) -> None:
        """Takes away all lines with these words, and what stands below them."""
        for at, line in enumerate(self.lines):
            if _word(line) in words and self.head(at) == at:
                self._blank(at)
                self._leave_below(at)


def _fault_of(read: Callable[[str], object], text: _Text) -> TextFault | None:
    try:
        read(str(text))
    except TextFault as fault:
        return fault
    return None


def _net(text: str) -> object:
    return make_net(read_sections(text))


def _faults_of_form(text: _Text) -> Iterator[tuple[TextFault, str | None]]:
    """Lines that can't be read, with their keywords."""
    while (fault := _fault_of(read_sections, text)) is not None:
        word = text.word(fault)
        yield fault, word
        if word is None or word in ("leaf", "states") or not text.leave_out(fault) or text.is_empty():
            return


def _faults_of_predicates(file: PopText, names: tuple[str, ...]) -> Iterator[TextFault]:
    given = [leaf.computes for leaf in file.leaves] + [file.predicate]
    for part in given:
        try:
            if part is not None:
                predicate_at(*part, names)
        except TextFault as fault:
            yield fault


def _faults_of_meaning(text: _Text, is_whole: bool) -> Iterator[TextFault]:
    """Lines that mean nothing: of the net, then its predicates, then its proofs, where all before is right."""
    if text.is_empty() or any(not leaf.inputs for leaf in read_sections(str(text)).leaves):
        return  # (what a leaf without inputs lacks is no fault of one line)
    net = _Text(str(text))
    net.leave(PROOF_WORDS + PREDICATE_WORDS)
    while (fault := _fault_of(_net, net)) is not None:
        yield fault
        is_whole = False
        if net.word(fault) not in (MOVE, *OUTPUT_WORDS) or not net.leave_out(fault):
            return
    file = read_sections(str(text))
    made, _ = make_net(read_sections(str(net)))
    for fault in _faults_of_predicates(file, made.names):
        is_whole = False
        yield fault
    while is_whole and (fault := _fault_of(lambda one: load_pop(one, ""), text)) is not None:
        yield fault
        if text.word(fault) not in PROOF_WORDS or not text.leave_part(fault):
            return


def faults_in(text: str) -> list[TextFault]:
    """The faults of a text in the order of its lines, `MOST_FAULTS` at most; none where `load_pop` reads it.

    The one that `load_pop` tells is among them.
    """
    first = _fault_of(lambda one: load_pop(one, ""), _Text(text))
    if first is None:
        return []
    out = [first]
    for fault in _all(text) if len(text) <= LONG_TEXT else ():
        if all((fault.line, fault.column, fault.told) != (one.line, one.column, one.told) for one in out):
            out.append(fault)
        if len(out) == MOST_FAULTS:
            break
    return sorted(out, key=lambda fault: (fault.line, fault.column))


def _all(text: str) -> Iterator[TextFault]:
    left = _Text(text)
    words = []
    for count, (fault, word) in enumerate(_faults_of_form(left)):
        yield fault
        words.append(word)
        if count == MOST_FAULTS:
            return
    if all(word in FREE for word in words):
        yield from _faults_of_meaning(left, not words)
