"""Reaction networks as text (`.crn`), read as `.pop` files: `A + B -> 2U : 0.5`, `A + B <-> C + D : 2, k`, `A -> B`.

A reaction has as many products as reactants, one or two, since agents neither come nor go and change when two of them
meet. Rates become chances; the greatest sum of rates for two reactants is 1. ppsim's signs are read too: `>>`, `|`,
`2*U`, `.k(0.5)` and `.r(2)`. Lines that begin with a word of a `.pop` file stay as they are. Without a line `inputs`
each species is a variable; without a line `yes` none outputs true.
"""
from __future__ import annotations

import re
from dataclasses import dataclass
from fractions import Fraction

from ..protocol.laws import chance_text
from ..protocol.naming import state_text
from .popsections import FILE_WORDS, LEAF_WORDS
from .scanner import TextFault
from .writer import head

ENDING = ".crn"
MEETING = 2  # agents that take part in one
CHANCE_DIGITS = 18  # of the numbers of a chance
_ARROW = re.compile(r"<->|<=>|->|>>|\|")
# (blanks stand in one place of each, so that long rows of them are looked at once)
TERM = re.compile(r"(?:([0-9]{1,3})\s*(?:\*\s*)?)?([A-Za-z_][A-Za-z0-9_']*)")
_NUMBER = r"(?:[0-9]{1,15}(?:\.[0-9]{0,15})?|\.[0-9]{1,15})(?:[eE][+-]?[0-9]{1,2})?"
_RATE = re.compile(rf"{_NUMBER}|[0-9]{{1,15}}/[0-9]{{1,15}}")
_NAME = re.compile(r"[A-Za-z_][A-Za-z0-9_]*")
_GIVEN = re.compile(r"\s*([A-Za-z_][A-Za-z0-9_]*)\s*=\s*(\S.*)")
_BEHIND = re.compile(r"(?::([^:()]*)|\.k\(([^()]*)\)(?:\s*\.r\(([^()]*)\))?)$")
_WORD = re.compile(r"\s*([a-z]+)\b")

Species = tuple[str, ...]


@dataclass(frozen=True)
class Reaction:
    """One species or two that become as many others, by a rate; `line` counts from 1."""

    before: Species
    after: Species
    rate: Fraction
    line: int


@dataclass(frozen=True)
class Network:
    """The reactions, and the lines of a `.pop` file beside them, the others empty.

    In a volume V, a reaction of two species happens by its rate times their pairs of agents divided by V in a unit of
    time (Gillespie 1977). One of a single species happens by its rate times its agents.
    """

    lines: tuple[str, ...]
    reactions: tuple[Reaction, ...]

    @property
    def species(self) -> list[str]:
        """All species in order of mention."""
        return list(dict.fromkeys(name for one in self.reactions for name in (*one.before, *one.after)))

    @property
    def is_paired(self) -> bool:
        """Whether each reaction is of two agents: then chances depend on no volume."""
        return all(len(one.before) == MEETING for one in self.reactions)

    def most(self, ratio: Fraction) -> Fraction:
        """The rate that becomes a chance of 1; `ratio` is the volume divided by the agents less one."""
        alone: dict[str, Fraction] = {}
        pairs: dict[Species, Fraction] = {}
        for one in self.reactions:
            if len(one.before) == MEETING:
                both = tuple(sorted(one.before))
                pairs[both] = pairs.get(both, Fraction(0)) + one.rate
            else:
                alone[one.before[0]] = alone.get(one.before[0], Fraction(0)) + 2 * ratio * one.rate
        sums = [rate + max(alone.get(name, Fraction(0)) for name in both) for both, rate in pairs.items()]
        return max([*sums, *alone.values()], default=Fraction(1))

    def meetings(self, agents: int, volume: Fraction) -> Fraction:
        """How many meetings happen in a unit of the network's time, those that change nothing among them."""
        return self.most(volume / (agents - 1)) * agents * (agents - 1) / (2 * volume)

    def pop_text(self, ratio: Fraction = Fraction(1)) -> str:
        """The `.pop` file, line for line; what has no line of its own stands at the end."""
        out, most, words = list(self.lines), self.most(ratio), _words(self.lines)
        for one in self.reactions:
            for move in self._moves(one, ratio, most):
                if out[one.line - 1]:
                    out.append(move)
                else:
                    out[one.line - 1] = move
        if "inputs" not in words:
            out.append(head("inputs", "   ".join(f"{name}: {state_text(name)}" for name in self.species)))
        return "\n".join(out if "yes" in words or "no" in words else [*out, "yes"])

    def _moves(self, one: Reaction, ratio: Fraction, most: Fraction) -> list[str]:
        """The moves of a reaction; of a single agent those with each partner, whom it leaves as it is."""
        if len(one.before) == MEETING:
            sides, sign, chance = [(*one.before, *one.after)], "+", one.rate / most
        else:
            sides = [(one.before[0], other, one.after[0], other) for other in self.species]
            sign, chance = ",", 2 * ratio * one.rate / most
        if max(len(str(chance.numerator)), len(str(chance.denominator))) > CHANCE_DIGITS:
            told = f"as a chance this rate is a quotient of numbers with over {CHANCE_DIGITS} digits"
            raise TextFault(one.line, 1, told, "")
        part = "" if chance == 1 else f" @ {chance_text(chance)}"
        return [f"{p} {sign} {q} -> {r} {sign} {s}{part}" for p, q, r, s in (map(state_text, side) for side in sides)]


def _words(lines: tuple[str, ...]) -> list[str]:
    return [(found[1] if (found := _WORD.match(line)) else "") for line in lines]


class _Reader:
    """Reads the lines of a network, those with rates by name first."""

    def __init__(self, text: str) -> None:
        self.whole = text.split("\n")
        self.lines = [line.partition("#")[0].rstrip() for line in self.whole]
        words = _words(tuple(self.lines))
        self.kept = [
            word in FILE_WORDS + LEAF_WORDS and not _ARROW.search(line) for word, line in zip(words, self.lines)
        ]
        self.rates: dict[str, Fraction] = {}
        self.named = [not keep and self._names(at, line) for at, (line, keep) in enumerate(zip(self.lines, self.kept))]

    def network(self) -> Network:
        made: list[Reaction] = []
        for at, line in enumerate(self.lines):
            if line.strip() and not self.kept[at] and not self.named[at]:
                made += self._reactions(at, line)
        lines = tuple(line if keep else "" for line, keep in zip(self.lines, self.kept))
        return Network(lines, tuple(made))

    def _fault(self, at: int, told: str, part: str = "") -> TextFault:
        line = self.lines[at]
        return TextFault(at + 1, line.find(part) + 1 if part.strip() and part in line else 1, told, self.whole[at])

    def _names(self, at: int, line: str) -> bool:
        """Notes the rate of a line `k = 0.5`."""
        found = _GIVEN.match(line.rstrip())
        if found is None or _ARROW.search(line):
            return False
        if found[1] in self.rates:
            raise self._fault(at, f"the rate `{found[1]}` has a value already", found[1])
        self.rates[found[1]] = self._rate(at, found[2])
        return True

    def _rate(self, at: int, text: str) -> Fraction:
        """A rate: a number above 0, or the name of one."""
        text = text.strip()
        if _NAME.fullmatch(text):
            if text not in self.rates:
                raise self._fault(at, f"the rate `{text}` has no value: a line `{text} = 0.5` gives it one", text)
            return self.rates[text]
        if not _RATE.fullmatch(text) or text.endswith("/0") or not Fraction(text):
            raise self._fault(
                at,
                f"a rate is a number above 0, as in `0.5`, `1e-3` or `3/10`, or the name of one; found `{text}`",
                text,
            )
        return Fraction(text)

    def _reactions(self, at: int, line: str) -> list[Reaction]:
        """The reaction of a line, and the one back where it goes both ways."""
        found = _BEHIND.search(line.rstrip())
        body = (line[: found.start()] if found else line).strip()
        arrow = _ARROW.search(body)
        if arrow is None:
            raise self._fault(at, "expected a reaction, as in `A + B -> 2U : 0.5`, or a rate, as in `k = 0.5`")
        if body.startswith("(") and body.endswith(")"):
            body = body[1:-1]
            arrow = _ARROW.search(body) or arrow
        rates = [self._rate(at, part) for part in self._written(found)]
        both = arrow.group() in ("<->", "<=>", "|")
        if len(rates) > 1 + both:
            raise self._fault(at, "two rates are for a reaction that goes both ways, as in `A + B <-> C + D : 2, 1`")
        before, after = self._side(at, body[: arrow.start()]), self._side(at, body[arrow.end() :])
        self._counted(at, before, after)
        forth = rates[0] if rates else Fraction(1)
        # (ppsim's rate back is 1 where it isn't named; behind `<->` one rate is that of both ways)
        back = rates[1] if len(rates) > 1 else Fraction(1) if arrow.group() == "|" else forth
        made = [Reaction(before, after, forth, at + 1)]
        return [*made, Reaction(after, before, back, at + 1)] if both else made

    @staticmethod
    def _written(found: re.Match[str] | None) -> list[str]:
        """The texts of a line's rates."""
        if found is None:
            return []
        return (
            found[1].split(",") if found[1] is not None else [part for part in found.groups()[1:] if part is not None]
        )

    def _side(self, at: int, text: str) -> Species:
        """The species of a side."""
        names: list[str] = []
        for part in text.split("+") if text.strip() not in ("", "0", "∅") else []:
            found = TERM.fullmatch(part.strip().strip("()"))
            if found is None:
                raise self._fault(at, f"expected species as in `A + B` or `2A`, found `{part.strip()}`", part.strip())
            names += [found[2]] * int(found[1] or 1)
        return tuple(names)

    def _counted(self, at: int, before: Species, after: Species) -> None:
        """Fails where agents come or go, or more than two of them meet."""
        if len(before) > MEETING:
            raise self._fault(
                at, f"a reaction has one or two reactants, and this one has {len(before)}: agents meet in pairs"
            )
        if not before or len(after) != len(before):
            raise self._fault(
                at,
                f"a reaction has as many products as reactants, and this one has {len(before)} and {len(after)}: agents"
                " neither come nor go. A species that stands for nothing may fill the place",
            )


def read_network(text: str) -> Network:
    """The network of a text; TextFault where it has no meaning."""
    return _Reader(text).network()
