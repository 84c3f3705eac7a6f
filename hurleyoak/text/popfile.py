"""The sections of a `.pop` file: reads each line for its form, and leaves what names mean to `netreader` and
`proofreader`."""
from __future__ import annotations

import re
from fractions import Fraction
from typing import Iterator

from ..protocol.laws import Law
from ..protocol.nets import HELPER_LIMIT, LEAF_LIMIT, MOVE_LIMIT
from .popsections import (
    ANY,
    FILE_WORDS,
    GOAL_WORDS,
    HOLE,
    LEAF_WORDS,
    WILDCARD,
    GoalText,
    LayerText,
    LeafText,
    MoveText,
    Named,
    PopText,
    TreeText,
)
from .scanner import WORD, Line, Place, Source, TextFault, as_they_are, lines_of
from ..wholes import is_whole, whole_of

LOOP = re.compile(r"for\s+[A-Za-z_]\w*\s+in\b")
CHANCE = re.compile(r"[0-9]{1,18}(?:\.[0-9]{1,18}|/[0-9]{1,18})?(?![0-9./])")


def read_state(line: Line, expected: str = "a state") -> Named:
    """A state's name with its place."""
    line.skip()
    place = line.place()
    return Named(line.name(expected), place)


def _chance(line: Line) -> Fraction | None:
    """The chance of a move, if it has one."""
    if not line.takes("@"):
        return None
    line.skip()
    place = line.place()
    text = line.matches(CHANCE)
    chance = Fraction(text) if text and not text.endswith("/0") else None
    if chance is None or not 0 < chance <= 1:
        raise place.fault("expected a chance above 0 and at most 1, as in `@ 0.3` or `@ 1/3`")
    return chance


def read_move(line: Line, wild: bool = True) -> MoveText:
    """A move; with `wild`, `*` may stand for a state."""
    parts: list[Named] = []
    signs: list[str] = []
    for expected in ("`+` or `,`, and the other state", "`->`", "`+` or `,`, and the other state", ""):
        line.skip()
        if wild and line.looking_at(WILDCARD):
            parts.append(Named(ANY, line.place()))
            line.takes(WILDCARD)
        else:
            parts.append(read_state(line))
        if expected == "`->`":
            line.needs("->")
        elif expected:
            signs.append(line.takes("+", ","))
            if not signs[-1]:
                raise line.fault(expected)
    again = line.number_("a number") if line.takes("/") else 1
    a, b, c, d = parts
    law = Law(_chance(line), signs[0] == ",")
    return MoveText((a.name, b.name, c.name, d.name), (a.place, b.place, c.place, d.place), again, law)


def _several(line: Line, expected: str) -> Iterator[Named]:
    while not line.is_done():
        if line.looking_at(WILDCARD):
            yield Named(ANY, line.place())
            line.takes(WILDCARD)
        else:
            yield read_state(line, expected)
        line.takes(",")


class _Reader:
    def __init__(self, text: str, source: Source) -> None:
        self.lines = lines_of(text, source)
        self.next = 0
        self.file = PopText()
        self.single = False

    def read(self) -> PopText:
        if not self.lines:
            raise TextFault(
                1, 1, "expected a protocol, such as `inputs x: A` and `A + B -> a + b`; the file says nothing", ""
            )
        while self.next < len(self.lines):
            line = self.lines[self.next]
            self.next += 1
            word = self.keyword(line)
            if word in FILE_WORDS:
                self.file_line(word, line)
            else:
                self.leaf_line(word, line, self.leaf(line))
        return self.file

    def keyword(self, line: Line) -> str:
        """The keyword that a line begins with, or the empty text: then it is a move."""
        at = line.at
        word = line.matches(WORD) or ""
        if word in FILE_WORDS + LEAF_WORDS and not line.looking_at("+") and not line.looking_at(","):
            return word
        line.at = at
        return ""

    def leaf(self, line: Line) -> LeafText:
        """The leaf that a line belongs to: the last one, or the only one, which has no name."""
        if not self.file.leaves:
            self.single = True
            self.file.leaves.append(LeafText("", line.start()))
        return self.file.leaves[-1]

    def file_line(self, word: str, line: Line) -> None:
        place = line.start()
        if word in ("format", "predicate", "combine"):
            self.once(word, getattr(self.file, word), place)
        if word == "format":
            self.file.format = (line.number_("1 or 2"), place)
        elif word == "variables":
            self.file.variables += _several(line, "a variable")
        elif word == "predicate":
            self.file.predicate = line.rest()
        elif word == "assume":
            self.file.assumed.append(line.rest())
        elif word == "combine":
            self.file.combine = (line, place)
            return
        else:
            if self.single:
                raise place.fault(
                    "in a file with `leaf` lines every line of a leaf comes after one: put the first `leaf NAME` above"
                    " its lines"
                )
            name = read_state(line, "the leaf's name")
            if any(leaf.name == name.name for leaf in self.file.leaves):
                raise name.place.fault(f"a leaf `{name.name}` was there before")
            if len(self.file.leaves) == LEAF_LIMIT:
                raise name.place.fault(f"a net has at most {LEAF_LIMIT} leaves")
            self.file.leaves.append(LeafText(name.name, name.place))
        line.must_end()

    @staticmethod
    def once(word: str, before: "tuple[object, Place] | None", place: Place) -> None:
        """Fails where a line with this word was there before."""
        if before is not None:
            raise place.fault(
                f"a line `{word}` was there before, on line {before[1].line}: which of the two is meant?"
            )

    def leaf_line(self, word: str, line: Line, leaf: LeafText) -> None:
        place = line.start()
        if word == "":
            if LOOP.match(line.whole, line.indent):
                raise place.fault(
                    "a `for` belongs to a family: a line such as `family m in 3` above it makes this file one"
                )
            move = read_move(line)
            for name, at in zip(move.states, move.places):
                leaf.mention(Named(name, at))
            leaf.moves.append(move)
            if len(leaf.moves) > MOVE_LIMIT:
                raise place.fault(f"a leaf has at most {MOVE_LIMIT:,} moves")
        elif word == "states":
            leaf.states += [leaf.mention(n) for n in _several(line, "a state")]
        elif word == "inputs":
            self.inputs(line, leaf)
        elif word == "helpers":
            self.helpers(line, leaf)
        elif word in ("yes", "no"):
            leaf.outputs.append((word == "yes", [leaf.mention(n) for n in _several(line, "a state")], place))
        elif word == "computes":
            self.once(word, leaf.computes, place)
            leaf.computes = line.rest()
        else:
            self.proof_line(word, line, leaf, place)
        line.must_end()

    def inputs(self, line: Line, leaf: LeafText) -> None:
        while not line.is_done():
            line.skip()
            place = line.place()
            name = line.matches(WORD)
            if name is None:
                raise line.fault("a variable, as in `x: A`")
            line.needs(":", "`:` and the state in which it starts")
            leaf.inputs.append((Named(name, place), leaf.mention(read_state(line))))
            line.takes(",")

    def helpers(self, line: Line, leaf: LeafText) -> None:
        while not line.is_done():
            named = read_state(line, "a helper's state, or a number and `*`")
            if line.takes("*"):
                if not is_whole(named.name):
                    raise named.place.fault(f"expected a number before `*`, found `{named.name}`")
                count = whole_of(named.name)
                if count > HELPER_LIMIT:
                    raise named.place.fault(f"a leaf has at most {HELPER_LIMIT:,} helpers")
                named = read_state(line)
                named.number = count
            else:
                named.number = 1
            leaf.helpers.append(leaf.mention(named))
            leaf.helper_count += named.number
            if leaf.helper_count > HELPER_LIMIT or len(leaf.helpers) > HELPER_LIMIT:
                raise named.place.fault(f"a leaf has at most {HELPER_LIMIT:,} helpers")
            line.takes(",")

    def block(self, head: Line) -> list[Line]:
        """The lines below a head that stand deeper."""
        out: list[Line] = []
        while self.next < len(self.lines) and self.lines[self.next].indent > head.indent:
            out.append(self.lines[self.next])
            self.next += 1
        return out

    def proof_line(self, word: str, line: Line, leaf: LeafText, place: Place) -> None:
        if word != "when":
            self.layers_line(word, line, leaf, place)
            return
        value = line.takes("true", "false")
        if not value:
            raise line.fault("`true` or `false`")
        if (value == "true") in leaf.trees:
            raise place.fault(f"a tree for {value} was there before")
        tree = TreeText(place, is_hole=bool(line.takes(HOLE)))
        line.takes(":")
        if not tree.is_hole:
            self.goal_lines(line, tree.goal)
        tree.lines = self.block(line)
        if tree.is_hole and tree.lines:
            raise tree.lines[0].fault("nothing below `?`")
        leaf.trees[value == "true"] = tree

    def layers_line(self, word: str, line: Line, to: LeafText | GoalText, place: Place) -> None:
        """A line `layers` or `layer`, of a leaf or of a goal."""
        if word == "layers":
            if not line.takes(HOLE):
                line.needs("none", "`?`, for layers that are to be found, or `none`")
                to.layers = []
            else:
                to.layers_hole = True
        else:
            if to.layers is None:
                to.layers = []
            to.layers.append(self.layer(line, place))

    def goal_lines(self, head: Line, goal: GoalText) -> None:
        """The lines of a goal below `when`, as far as they go."""
        while self.next < len(self.lines) and self.lines[self.next].indent > head.indent:
            line = self.lines[self.next]
            place, at = line.start(), line.at
            word = line.matches(WORD) or ""
            if word not in GOAL_WORDS:
                line.at = at
                return
            self.next += 1
            if word == "keeps":
                goal.keeps.append(line)
            else:
                self.layers_line(word, line, goal, place)
                line.must_end()

    def layer(self, line: Line, place: Place) -> LayerText:
        layer = LayerText(place, is_hole=bool(line.takes(HOLE)))
        if line.looking_at("{"):
            layer.raw = line.rest()[0]
            return layer
        while not layer.is_hole and not line.is_done():
            state = read_state(line, "a state and its weight, as in `A: 1`")
            line.needs(":", "`:` and the state's weight")
            state.number = line.number_("a weight")
            layer.weights.append(state)
            line.takes(",")
        for below in self.block(line):
            if below.takes(WILDCARD) and below.is_done():
                layer.moves.append(Named(ANY, below.place()))
                continue
            below.at = below.indent
            layer.moves.append(read_move(below, wild=False))
            below.must_end()
        return layer


def read_sections(text: str, source: Source = as_they_are) -> PopText:
    """The sections of a text, or a TextFault; their places are those of the lines from which they come."""
    return _Reader(text, source).read()
