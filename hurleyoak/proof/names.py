"""Names for a reader: of variables, moves, facts and cases of one leaf, and sums written out."""
from __future__ import annotations

import re
from functools import cached_property
from typing import Iterable, Sequence

from .facts import AT_LEAST, DIVIDES, EQUAL, HOLDS, NOT_DIVIDES, Fact, Space
from ..protocol.nets import Leaf
from ..protocol.predicates import And, Less, Not, Or, Rest, canonical_text
from .bundles import First, Goal, Node, Open, Present, Siphon, Split, Term, Trap, Twin, set_word
from .ends import STILL, partners_of
from .entries import is_about_inputs
from ..protocol.naming import state_text

NO_LABEL = ""
BY = "by"  # the label of an entry, before its move
_ORDINAL = re.compile(r"/[0-9]+$")


class Names:
    """Names for one leaf of a net with these variables, and for a goal's tree where one is given."""

    def __init__(self, variables: Sequence[str], leaf: Leaf, goal: Goal | None = None) -> None:
        self.variables, self.leaf, self.goal = variables, leaf, goal

    def state(self, q: int) -> str:
        """A state's name, or `state(9)` where there is no such state."""
        return state_text(self.leaf.states[q]) if q < len(self.leaf.states) else f"state({q})"

    def braces(self, states: Iterable[int]) -> str:
        """States in braces."""
        return "{" + ", ".join(self.state(q) for q in states) + "}"

    @cached_property
    def partners(self) -> tuple[frozenset[int], ...]:
        """For each state those that it can't stand beside at an end."""
        return partners_of(self.leaf, self.goal)

    @cached_property
    def _ordinals(self) -> list[int]:
        seen: dict[tuple[int, int, int, int], int] = {}
        out = []
        for move in self.leaf.moves:
            seen[move] = seen.get(move, 0) + 1
            out.append(seen[move])
        return out

    def move(self, t: int) -> str:
        """`A + B -> a + b`, with `/2` behind it where it is listed for the second time; or `move(99)`."""
        if t >= len(self.leaf.moves):
            return f"move({t})"
        p, q, r, s = (self.state(y) for y in self.leaf.moves[t])
        again = self._ordinals[t]
        return f"{p} + {q} -> {r} + {s}" + (f" /{again}" if again > 1 else "")

    def variable(self, a: int) -> str:
        """An input's name, `c(A)` for the agents in A at the end, `[A + B -> a + b]` for how often a move was
        taken."""
        inputs, states = len(self.variables), len(self.leaf.states)
        if a < inputs:
            return self.variables[a]
        if a < inputs + states:
            return f"c({self.state(a - inputs)})"
        if a < inputs + states + len(self.leaf.moves):
            return f"[{self.move(a - inputs - states)}]"
        return f"variable({a})"

    def sum(self, terms: Iterable[Term], constant: int = 0) -> str:
        """A sum written out, its constant last; `0` where it is empty."""
        return sum_of([(self.variable(a), k) for a, k in terms], constant)

    def says(self, fact: Fact) -> str:
        """What a fact says."""
        if fact.kind == HOLDS:
            assert fact.tree is not None
            return f"{canonical_text(fact.tree, self.variables)} is {str(fact.value).lower()}"
        text = self.sum(fact.terms, fact.constant)
        if fact.kind == DIVIDES:
            return f"{fact.modulus} divides {text}"
        if fact.kind == NOT_DIVIDES:
            return f"{fact.modulus} doesn't divide {text}"
        return f"{text} {'>=' if fact.kind == AT_LEAST else '='} 0"

    def base(self) -> list[str]:
        """The names of the base facts; a name that comes again gets a number by its branch."""
        wrong = ["outside"] * len(self.goal.sets) if self.goal and self.goal.sets else ["wrong"]
        return [*self._flow(), "agents", "predicate", *wrong]

    def _flow(self) -> list[str]:
        return [f"flow({self.state(q)})" for q in range(len(self.leaf.states))]

    def cases(self, node: Node, facts: Sequence[Fact], names: Sequence[str]) -> list[tuple[str, list[str]]]:
        """The label of each case of a node that is in range, and the names of its facts; a node's only case has no
        label. Those of `first` are the two behind its entries."""
        if isinstance(node, Present):
            return self._present(node.state)
        if isinstance(node, Twin):
            return [(NO_LABEL, [f"single({self.state(node.state)})"])]
        if isinstance(node, Trap):
            return self._trap(node.states)
        if isinstance(node, Siphon):
            return self._siphon(node.states)
        if isinstance(node, Split):
            text = self.sum(node.terms, node.constant)
            return [(word, [f"{word}({text})"]) for word in ("above", "equal", "below")]
        if isinstance(node, Open) and node.fact < len(facts):
            return self._open(facts[node.fact], names[node.fact])
        return self._first(node.states) if isinstance(node, First) else []

    def _present(self, p: int) -> list[tuple[str, list[str]]]:
        partners = self.partners[p]
        here = [f"here({self.state(p)})"] + [f"absent({self.state(q)})" for q in sorted(partners) if q != p]
        return [
            ("absent", [f"absent({self.state(p)})"]),
            ("here", here + ([f"one({self.state(p)})"] if p in partners else [])),
        ]

    def _never(self, key: Sequence[int], places: slice) -> list[str]:
        states = set(key)
        moves = enumerate(self.leaf.moves)
        return [f"never[{self.move(t)}]" for t, m in moves if not states.isdisjoint(list(m)[places])]

    def _unmarked(self, key: Sequence[int]) -> list[str]:
        states, text = set(key), self.braces(key)
        out = [f"none({self.variables[i]})" for i, q in enumerate(self.leaf.inputs) if q in states]
        out.append(f"empty{text}")
        return out + ([f"helped{text}"] if any(self.leaf.helper_counts[q] for q in key) else [])

    def _trap(self, key: Sequence[int]) -> list[tuple[str, list[str]]]:
        text = self.braces(key)
        never = self._never(key, slice(2, 4)) + self._unmarked(key)
        return [("leaves", [f"leaves{text}"]), ("never", never), ("some", [f"some{text}"])]

    def _siphon(self, key: Sequence[int]) -> list[tuple[str, list[str]]]:
        text = self.braces(key)
        never = self._never(key, slice(2)) + [f"empty{text}"]
        return [("enters", [f"enters{text}"]), ("starts", [f"starts{text}"]), ("never", never)]

    def _first(self, key: Sequence[int]) -> list[tuple[str, list[str]]]:
        text = self.braces(key)
        never = self._never(key, slice(4)) + [f"empty{text}"]
        return [("starts", [f"starts{text}"]), ("never", never)]

    def still(self) -> Names:
        """Names for the crowd before a set is entered."""
        return Names(self.variables, self.leaf, STILL)

    def before(self, space: Space, node: First, facts: Sequence[Fact], names: Sequence[str]) -> list[str]:
        """The names of what holds before a set is entered, in a branch with these facts and names."""
        known = [name for fact, name in zip(facts, names) if is_about_inputs(space, fact)]
        return [*self._flow(), *known, *self._never(node.states, slice(4)), *self._unmarked(node.states)]

    def entry(self, t: int) -> tuple[str, list[str]]:
        """The label of the case in which this move enters, and the names of its facts."""
        p, q = self.leaf.moves[t][:2]
        names = [f"two({self.state(p)})"] if p == q else [f"here({self.state(p)})", f"here({self.state(q)})"]
        return f"{BY} [{self.move(t)}]", names

    @staticmethod
    def _open(fact: Fact, name: str) -> list[tuple[str, list[str]]]:
        tree = fact.tree
        path = _ORDINAL.sub("", name).removeprefix("predicate")
        if isinstance(tree, (Less, Rest)):
            return [(NO_LABEL, [f"value{path}"])]
        if isinstance(tree, Not):
            return [(NO_LABEL, [f"predicate{path}.not"])]
        if not isinstance(tree, (And, Or)):
            return []
        left, right = f"predicate{path}.left", f"predicate{path}.right"
        if isinstance(tree, And) == fact.value:
            return [(NO_LABEL, [left, right])]
        return [("left", [left]), ("right", [right])]

    def node(self, node: Node, fact_names: Sequence[str]) -> str:
        """A node other than `lin` and `residue` in words; `fact_names` are those of its branch."""
        if isinstance(node, Present):
            return f"present {self.state(node.state)}"
        if isinstance(node, Twin):
            return f"twin {self.state(node.state)}"
        if isinstance(node, (Trap, Siphon, First)):
            return f"{set_word(node)} {self.braces(node.states)}"
        if isinstance(node, Split):
            return f"split {self.sum(node.terms, node.constant)}"
        assert isinstance(node, Open)
        return f"open {named(node.fact, fact_names)}"


def named(number: int, names: Sequence[str]) -> str:
    """A fact's name, or `fact(99)` where there is none."""
    return names[number] if number < len(names) else f"fact({number})"


def sum_of(terms: Iterable[tuple[str, int]], constant: int = 0) -> str:
    """Names times numbers, added up, with the constant last; `0` where there is nothing."""
    out = ""
    for name, k in terms:
        size = name if abs(k) == 1 else f"{abs(k)}*{name}"
        out += ((" - " if k < 0 else " + ") if out else ("-" if k < 0 else "")) + size
    if constant or not out:
        out += (f" - {-constant}" if constant < 0 else f" + {constant}") if out else str(constant)
    return out
