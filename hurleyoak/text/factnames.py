"""Reads sums of facts and of variables, sets of states and nodes' words from a line of a tree."""
from __future__ import annotations

from typing import Callable, TypeVar

from ..proof.names import Names
from .madeleaf import MadeLeaf, move_number
from .popfile import read_move, read_state
from ..proof.bundles import Term
from .scanner import NUMBER, WORD, Line, Place
from ..wholes import whole_of

Atom = TypeVar("Atom")

NUMBERED = ("fact", "state", "move", "variable")
_SUMS = ("above", "equal", "below")


class Unknown(Exception):
    """A name in a proof stands for nothing that is there; the place, and what is wrong."""

    def __init__(self, place: Place, told: str) -> None:
        super().__init__(told)
        self.place, self.told = place, told


def read_sum(line: Line, read_atom: Callable[[Line], Atom]) -> tuple[list[tuple[Atom, int]], int]:
    """Terms with their numbers in the order of the text, and the constant."""
    terms: list[tuple[Atom, int]] = []
    constant = 0
    sign = -1 if line.takes("-") else 1
    while True:
        digits = line.matches(NUMBER)
        if digits is not None and not line.takes("*"):
            constant += sign * whole_of(digits)
        else:
            atom = read_atom(line)
            terms.append((atom, sign * whole_of(digits or "1")))
        step = line.takes("+", "-")
        if not step:
            return terms, constant
        sign = 1 if step == "+" else -1


def read_index(line: Line, word: str) -> int | None:
    """The number in `state(9)`, where the line goes on with this word and a number in parentheses."""
    at = line.at
    if line.matches(WORD) == word and line.takes("("):
        digits = line.matches(NUMBER)
        if digits is not None and line.takes(")"):
            return whole_of(digits)
    line.at = at
    return None


class LeafReader:
    """Looks names of one leaf up."""

    def __init__(self, made: MadeLeaf, names: Names) -> None:
        self.made, self.names = made, names

    def state(self, line: Line) -> int:
        """A state's number; Unknown where there is none of this name."""
        number = read_index(line, "state")
        if number is not None:
            return number
        named = read_state(line)
        if named.name not in self.made.numbers:
            raise Unknown(named.place, f"`{named.name}` is no state of this leaf")
        return self.made.numbers[named.name]

    def states(self, line: Line) -> tuple[int, ...]:
        """A set of states in braces, ascending."""
        line.needs("{", "`{` and states")
        out: set[int] = set()
        while not line.takes("}"):
            out.add(self.state(line))
            if not line.takes(",") and not line.looking_at("}"):
                if line.is_done():
                    raise line.fault("`,` or `}`")
        return tuple(sorted(out))

    def move(self, line: Line, close: str) -> int:
        """A move's number up to a closing bracket."""
        number = read_index(line, "move")
        line.skip()
        place = line.place()
        if number is None:
            text = read_move(line, wild=False)
            number = move_number(self.made, text)
        line.needs(close)
        if number is None:
            raise Unknown(
                place,
                (
                    f"`{text.states[0]} + {text.states[1]} -> {text.states[2]} + {text.states[3]}` is no move of this"
                    " leaf"
                ),
            )
        return number

    def variable(self, line: Line) -> int:
        """A variable of the leaf: `x`, `c(A)`, `[A + B -> a + b]` or `variable(9)`."""
        inputs, states = len(self.names.variables), len(self.made.leaf.states)
        if line.takes("["):
            return inputs + states + self.move(line, "]")
        number = read_index(line, "variable")
        if number is not None:
            return number
        line.skip()
        place = line.place()
        word = line.matches(WORD)
        if word is None:
            raise line.fault("an input variable, `c(STATE)` or `[MOVE]`")
        if word == "c" and line.takes("("):
            state = self.state(line)
            line.needs(")")
            return inputs + state
        if word not in self.names.variables:
            raise Unknown(
                place, f"`{word}` is no variable; there are {', '.join(self.names.variables)}, `c(STATE)` and `[MOVE]`"
            )
        return list(self.names.variables).index(word)

    def row(self, line: Line) -> tuple[list[Term], int]:
        """A sum of variables, ascending, with its constant."""
        terms, constant = read_sum(line, self.variable)
        return sorted(terms), constant

    def fact(self, line: Line) -> str:
        """A fact's name as explain writes it; Unknown where a state or move in it isn't there."""
        line.skip()
        place = line.place()
        word = line.matches(WORD)
        if word is None:
            raise line.fault("a fact's name, such as `wrong`, `flow(A)` or `absent(A)`")
        name = word
        if line.takes("["):
            name += f"[{self.names.move(self.move(line, ']'))}]"
        elif line.looking_at("{"):
            name += self.names.braces(self.states(line))
        elif line.takes("("):
            name += f"({self._inside(word, line)})"
            line.needs(")")
        if line.takes("/"):
            digits = line.matches(NUMBER)
            if digits is None:
                raise place.fault("expected a number after `/`")
            name += f"/{whole_of(digits)}" if whole_of(digits) > 1 else ""
        return name

    def _inside(self, word: str, line: Line) -> str:
        if word in _SUMS:
            return self.names.sum(*self.row(line))
        if word == "fact":
            digits = line.matches(NUMBER)
            if digits is None:
                raise line.fault("a fact's number")
            return digits
        if word == "none":
            line.skip()
            place = line.place()
            name = line.matches(WORD) or ""
            if name not in self.names.variables:
                raise Unknown(place, f"`{name}` is no variable; there are {', '.join(self.names.variables)}")
            return name
        return self.names.state(self.state(line))
