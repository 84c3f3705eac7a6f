"""A net as a model for PRISM: a Markov chain of one population size, with labels for its ends and its outputs.

Meetings are steps of a `dtmc`. A network in its own time is a `ctmc`, in a volume.
"""
from __future__ import annotations

import re
from fractions import Fraction
from typing import Sequence

from ..protocol.predicates import And, Less, Not, Predicate, Rest
from ..protocol.reactions import Reactions
from ..simulation.timeline import Pace
from ..text.loaded import Loaded
from .rules import Rule, Rules

STATE, AGENTS = "c_", "agents"
_WORDS = (
    "A bool clock const ctmc C double dtmc E endinit endinvariant endmodule endobservables endrewards endsystem false",
    "formula filter func F global G init invariant I int label max mdp min module nondeterministic observable",
    "observables of Pmax Pmin P pomdp popta probabilistic prob pta rate rewards Rmax Rmin R S stochastic system true U",
    f"W X {AGENTS} pairs yes",
)
KEYWORDS = frozenset(word for words in _WORDS for word in words.split())


def named(names: Sequence[str], lead: str) -> list[str]:
    """An identifier for each name."""
    out: list[str] = []
    for name in names:
        plain = lead + re.sub(r"[^A-Za-z0-9_]", "_", name)
        plain = f"v_{plain}" if plain in KEYWORDS or plain[:1].isdigit() else plain
        while plain in out:
            plain += "_"
        out.append(plain)
    return out


def predicate_text(tree: Predicate, names: Sequence[str]) -> str:
    """A predicate as PRISM writes it."""
    if isinstance(tree, Not):
        return f"!({predicate_text(tree.part, names)})"
    if isinstance(tree, Less):
        return f"{_sum(tree.coefficients, names)} < {tree.bound}"
    if isinstance(tree, Rest):
        positive = [k % tree.modulus for k in tree.coefficients]
        return f"mod({_sum(positive, names)}, {tree.modulus}) = {tree.rest}"
    sign = "&" if isinstance(tree, And) else "|"
    return f"({predicate_text(tree.left, names)} {sign} {predicate_text(tree.right, names)})"


def _sum(coefficients: Sequence[int], names: Sequence[str]) -> str:
    return " + ".join(f"{k}*{name}" if k >= 0 else f"({k})*{name}" for k, name in zip(coefficients, names) if k) or "0"


class Model:
    """The model of a net, for counts that are given or that stay open."""

    def __init__(self, loaded: Loaded, title: str, counts: Sequence[int] | None, pace: Pace | None) -> None:
        self.loaded, self.title, self.counts, self.pace = loaded, title, counts, pace
        net = loaded.net
        every = Reactions(net).start([1] * len(net.names))
        self.rules = Rules(net, every)
        self.start = Reactions(net).start([0] * len(net.names))
        self.names = named([self.rules.reactions.name(word) for word in self.rules.words], STATE)
        self.variables = named(net.names, "")

    def text(self) -> str:
        """The whole file."""
        kind = "dtmc" if self.pace is None else "ctmc"
        what = "a step is a meeting" if self.pace is None else "in the network's own time"
        return "\n".join(
            [
                f"// {self.title}: {what} (bin/pop export --prism)",
                kind,
                "",
                *self._constants(),
                "",
                "module crowd",
                *(f"  {name} : [0..{AGENTS}] init {self._first(at)};" for at, name in enumerate(self.names)),
                *(self._step() if self.pace is None else self._commands()),
                "endmodule",
                "",
                *self._labels(),
                "",
            ]
        )

    def _constants(self) -> list[str]:
        values = [""] * len(self.variables) if self.counts is None else [f" = {k}" for k in self.counts]
        lines = [f"const int {name}{value};" for name, value in zip(self.variables, values)]
        helpers = len(self.loaded.net.leaves[0].helpers)
        whole = " + ".join([*self.variables, *([str(helpers)] if helpers else [])])
        lines.append(f"const int {AGENTS} = {whole};")
        if self.pace is not None and self.pace.volume is not None:
            lines.append(f"const double volume = {_number(self.pace.volume)};")
        return lines

    def _first(self, at: int) -> str:
        word, leaves = self.rules.words[at], self.loaded.net.leaves
        parts = [name for i, name in enumerate(self.variables) if tuple(leaf.inputs[i] for leaf in leaves) == word]
        fixed = self.start.get(word, 0)
        return " + ".join([*parts, *([str(fixed)] if fixed or not parts else [])])

    def _weight(self, rule: Rule) -> str:
        one, two = self.names[rule.first], self.names[rule.second]
        share = Fraction(rule.share, self.rules.whole)
        pair = f"{one}*({one}-1)" if rule.first == rule.second else f"{one}*{two}"
        return pair if share == 1 else f"{_number(share)}*{pair}"

    def _update(self, rule: Rule, is_safe: bool) -> str:
        """What a meeting does; a chance of 0 may stand before it, and then it stays within its range."""
        parts = []
        for at, k in rule.change:
            name = self.names[at]
            made = f"{name}{k:+d}"
            bounded = f"max(0,{made})" if k < 0 else f"min({AGENTS},{made})"
            parts.append(f"({name}'={made if is_safe else bounded})")
        return "&".join(parts)

    def _step(self) -> list[str]:
        """One command with all that a meeting may do."""
        moves = [f"{self._weight(rule)}/pairs : {self._update(rule, False)}" for rule in self.rules.rules]
        return ["  [meet] true ->", *(f"    {move} +" for move in moves), "    1-changing : true;"]

    def _commands(self) -> list[str]:
        """A command for each reaction, by its rate in the network's time."""
        assert self.pace is not None
        return [
            f"  [meet] {self._enabled(rule)} -> speed*{self._weight(rule)}/pairs : {self._update(rule, True)};"
            for rule in self.rules.rules
        ]

    def _enabled(self, rule: Rule) -> str:
        one, two = self.names[rule.first], self.names[rule.second]
        return f"{one}>1" if one == two else f"{one}>0 & {two}>0"

    def _labels(self) -> list[str]:
        pairs = dict.fromkeys((rule.first, rule.second) for rule in self.rules.rules)
        firsts = {pair: next(r for r in self.rules.rules if (r.first, r.second) == pair) for pair in pairs}
        ends = " & ".join(f"!({self._enabled(rule)})" for rule in firsts.values()) or "true"
        yes = " + ".join(name for name, out in zip(self.names, self.rules.outputs) if out) or "0"
        changing = " + ".join(f"{self._weight(rule)}/pairs" for rule in self.rules.rules) or "0"
        lines = [f"formula pairs = {AGENTS}*({AGENTS}-1);", f"formula changing = {changing};", f"formula yes = {yes};"]
        if self.pace is not None:
            most = self.loaded.network.most(self._ratio()) if self.loaded.network else Fraction(1)
            lines.append(f"formula speed = {_number(most)}*pairs/(2*volume);")
        lines += [
            f'label "terminal" = {ends};',
            f'label "all_true" = (yes = {AGENTS});',
            'label "all_false" = (yes = 0);',
        ]
        if self.loaded.predicate is not None:
            lines.append(f"formula value = {predicate_text(self.loaded.whole_tree(), self.variables)};")
            lines.append(f'label "right" = (value ? yes = {AGENTS} : yes = 0);')
        reward = ['rewards "meetings"', "  [meet] true : 1;", "endrewards"] if self.pace is None else []
        return [*lines, "", *reward]

    def _ratio(self) -> Fraction:
        assert self.pace is not None and self.pace.volume is not None and self.counts is not None
        agents = sum(self.counts) + len(self.loaded.net.leaves[0].helpers)
        return self.pace.volume / (agents - 1)


def _number(value: Fraction) -> str:
    return str(value.numerator) if value.denominator == 1 else f"({value.numerator}/{value.denominator})"


def prism_text(loaded: Loaded, title: str, counts: Sequence[int] | None, pace: Pace | None) -> str:
    """The file of a net. Where no counts are given, its variables are constants that PRISM asks for."""
    return Model(loaded, title, counts, pace).text()
