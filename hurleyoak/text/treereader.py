"""From the lines of a tree to its nodes, each name looked up in its branch.

A part may be left open by `?`; it is then a Hole, which `find` fills.
"""
from __future__ import annotations

import difflib
from dataclasses import dataclass, replace
from typing import Union

from ..proof.branches import Branch, NamedCase
from .factnames import LeafReader, Unknown, read_sum
from .jsontext import read_json
from ..proof.names import BY, NO_LABEL, Names
from .madeleaf import MadeLeaf
from ..protocol.nets import FormatFault
from .popsections import HOLE, TreeText
from ..protocol.predicates import Predicate
from ..proof.bundles import First, Hole, Linear, Node, Open, Present, Residue, Siphon, Split, Term, Trap, Twin
from ..proof.bundles import node_of
from .scanner import NUMBER, WORD, Line, Place
from ..wholes import whole_of

DraftNode = Union[Node, Hole]
SUGGESTIONS = 3


@dataclass
class Note:
    """Something in a proof that stands for nothing: it was left out. `tree` and `node` say where, `tree` None for
    layers."""

    place: Place
    told: str
    tree: bool | None = None
    node: int = 0


@dataclass(kw_only=True)
class _Waiting:
    """A case that waits for its nodes: its facts, whose case it is, and how deep its line has to stand. Where its label
    stood on a line before, it has none."""

    case: NamedCase
    label: str
    owner: str
    owner_line: int
    deeper_than: int
    group: list[int]


class TreeReader:
    """Reads one tree, line by line, with the facts of each branch."""

    def __init__(
        self, made: MadeLeaf, names: Names, tree: Predicate, value: bool, notes: list[Note], holes: list[Place]
    ) -> None:
        self.names, self.reader, self.value = names, LeafReader(made, names), value
        self.notes, self.holes = notes, holes
        self.branch = Branch(names)
        self.nodes: list[DraftNode] = []
        self.lines: list[int] = []
        top = self.branch.base(tree, value)
        self.waiting = [_Waiting(case=top, label=NO_LABEL, owner="", owner_line=0, deeper_than=-1, group=[])]
        self.is_cut = False

    def read(self, text: TreeText) -> list[DraftNode]:
        """The nodes in preorder."""
        for line in text.lines:
            self._line(line)
        if self.waiting and not self.is_cut:
            case = self.waiting[-1]
            if not case.owner:
                raise text.place.fault("the tree has no node: write `?` below it for one to be found")
            label = f"the case `{case.label}` of" if case.label else "what follows"
            raise text.place.fault(
                f"{label} `{case.owner}` on line {case.owner_line} has no node: write `lin 0` or `?` while it isn't"
                " there yet"
            )
        return self.nodes

    def _line(self, line: Line) -> None:
        at = line.at
        word = line.matches(WORD)
        if word == "missing" and line.is_done():
            self.is_cut = True
            self.waiting = []
            return
        if word == "rest":
            self.is_cut = True
            self.lines.append(line.number)
            self.nodes.append(self._raw(line))
            line.must_end()
            return
        line.at = at
        if self.is_cut or not self.waiting:
            raise line.place().fault("this node is one too many: all cases of the tree are closed")
        self._case(line)

    def _case(self, line: Line) -> None:
        case = self.waiting[-1]
        at = line.at
        place = line.place()
        label = self._label(line)
        if not label:
            line.at = at
        if label != case.label:
            wanted = (
                f"`{case.label}:`, the next case of `{case.owner}` on line {case.owner_line}"
                if case.label
                else "a node without a label"
            )
            raise place.fault(f"expected {wanted}")
        if line.indent <= case.deeper_than or (case.group and case.group[0] != line.indent):
            raise place.fault(
                f"expected the case `{case.label}` of `{case.owner}` on line {case.owner_line}, deeper than it and as"
                " deep as its other cases"
                if case.label
                else f"expected the line after `{case.owner}` on line {case.owner_line} to be as deep as it"
            )
        case.group.append(line.indent)
        self.waiting.pop()
        self.branch = case.case.enter()
        if label and line.is_done():
            self.waiting.append(replace(case, label=NO_LABEL, deeper_than=line.indent, group=[]))
            return
        self._node(line, line.indent if label else line.indent - 1)

    def _label(self, line: Line) -> str:
        """The label with which a line begins, if it does: a word, or `by` and a move, and `:`."""
        word = line.matches(WORD)
        if word is None or word == "residue":
            return NO_LABEL
        if word == BY and line.takes("["):
            try:
                word = f"{BY} [{self.names.move(self.reader.move(line, ']'))}]"
            except Unknown as unknown:
                raise unknown.place.fault(unknown.told) from None
        return word if line.takes(":") else NO_LABEL

    def _node(self, line: Line, deeper_than: int) -> None:
        number, start = line.number, line.at
        self.lines.append(number)
        try:
            node = self._read_node(line)
        except Unknown as unknown:
            raise unknown.place.fault(unknown.told) from None
        text = line.whole[start : line.at].strip() if line.number == number else line.whole.strip()
        line.must_end()
        self.nodes.append(node)
        if isinstance(node, Hole):
            return
        group: list[int] = []
        for case in reversed(self.branch.cases(node)):
            self.waiting.append(
                _Waiting(
                    case=case,
                    label=case.label,
                    owner=text,
                    owner_line=number,
                    deeper_than=line.indent if case.label else deeper_than,
                    group=group if case.label else [],
                )
            )

    def _read_node(self, line: Line) -> DraftNode:
        line.skip()
        place = line.place()
        if line.takes(HOLE):
            self.holes.append(place)
            return Hole()
        word = line.matches(WORD)
        if word in ("lin", "residue"):
            return self._ending(word, line, place)
        if word == "split":
            terms, constant = self.reader.row(line)
            if any(a[0] == b[0] for a, b in zip(terms, terms[1:])):
                raise place.fault("a variable occurs twice in the sum")
            return Split(tuple(terms), constant)
        if word == "present":
            return Present(self.reader.state(line))
        if word == "twin":
            return Twin(self.reader.state(line))
        if word == "trap":
            return Trap(self.reader.states(line))
        if word == "siphon":
            return Siphon(self.reader.states(line))
        if word == "first":
            return First(self.reader.states(line))
        if word == "open":
            found = self._fact(line)
            if isinstance(found, Unknown):
                raise found
            return Open(found)
        if word == "node":
            return self._raw(line)
        raise place.fault(
            "expected a node: `open`, `present`, `twin`, `trap`, `siphon`, `first`, `split`, `lin`, `residue` or `?`"
        )

    def _raw(self, line: Line) -> Node:
        text, place = line.rest()
        try:
            return node_of(read_json(text), "")
        except FormatFault as fault:
            raise place.fault(f"this is no node in JSON: {fault.path} {fault.why}") from None
        except ValueError:
            raise place.fault("this is no JSON") from None

    def _ending(self, word: str, line: Line, place: Place) -> DraftNode:
        modulus = 0
        if word == "residue":
            digits = line.matches(NUMBER)
            if digits is None or not 2 <= whole_of(digits) <= 200:
                raise place.fault("expected `residue`, a modulus of 2 to 200, and `:`")
            modulus = whole_of(digits)
            if not line.looking_at(HOLE):
                line.needs(":")
        if line.takes(HOLE):
            self.holes.append(place)
            return Hole(word, modulus)
        terms, constant = read_sum(line, self._fact)
        if constant or (not terms and not line.is_done()):
            raise place.fault(
                "a sum of facts has no number alone: each number is followed by `*` and a fact; `lin 0` names none"
            )
        known: list[Term] = []
        for found, k in terms:
            if isinstance(found, Unknown):
                self.notes.append(Note(found.place, found.told, self.value, len(self.nodes)))
            else:
                known.append((found, k))
        return Linear(tuple(known)) if word == "lin" else Residue(modulus, tuple(known))

    def _fact(self, line: Line) -> int | Unknown:
        line.skip()
        place = line.place()
        try:
            name = self.reader.fact(line)
        except Unknown as unknown:
            _to_bracket_end(line)
            return unknown
        if name.startswith("fact("):
            return whole_of(name[5:-1])
        if name in self.branch.numbers:
            return self.branch.numbers[name]
        return Unknown(place, f"no fact `{name}` here" + self._suggestion(name))

    def _suggestion(self, name: str) -> str:
        if name.startswith("absent("):
            return ": no state that is known to be there in this branch reacts with it, or it isn't looked at before"
        near = difflib.get_close_matches(name, self.branch.names, SUGGESTIONS, 0.5)
        return "; there are " + ", ".join(f"`{n}`" for n in near) if near else ""


def _to_bracket_end(line: Line) -> None:
    """Passes over what is left of a fact whose state or move isn't there."""
    while line.at < line.end and line.whole[line.at] not in ")]}":
        line.at += 1
    line.at = min(line.at + 1, line.end)
