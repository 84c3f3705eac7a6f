"""Conditions on counts, as in `X = 0` or `X - 2*Y > 10 && Z < 3`, and after how many changes they may come to hold."""
from __future__ import annotations

from dataclasses import dataclass
from typing import Sequence

from ..faults import AskFault, InputFault
from ..protocol.nets import Net
from ..protocol.predicates import And, Less, Not, Predicate, Rest, value_at
from ..protocol.reactions import Word
from ..text.given import read_given
from ..text.relaxed import strict_names
from .simulation import Simulation


def place_of(net: Net, name: str) -> tuple[int, int]:
    """The leaf and the number of the state with this name; InputFault where there is none, or one in several
    leaves."""
    found = [(at, leaf.states.index(name)) for at, leaf in enumerate(net.leaves) if name in leaf.states]
    if len(found) == 1:
        return found[0]
    if found:
        raise InputFault(f"`{name}` is a state of several leaves")
    raise InputFault(
        f"`{name}` is no state of the net; it has {', '.join(s for leaf in net.leaves for s in leaf.states)}"
    )


@dataclass(frozen=True)
class Condition:
    """A condition on the counts of some states, each of one leaf."""

    text: str
    tree: Predicate
    places: tuple[tuple[int, int], ...]

    def counts(self, run: Simulation) -> list[int]:
        """How many agents are in each of its states."""
        return self._counts(run.words, run.counts)

    def _counts(self, words: Sequence[Word], counts: Sequence[int]) -> list[int]:
        there = [(word, k) for word, k in zip(words, counts) if k]
        return [sum(k for word, k in there if word[leaf] == state) for leaf, state in self.places]

    def holds(self, run: Simulation) -> bool:
        """Whether it holds now."""
        return value_at(self.tree, self.counts(run))

    def slack(self, run: Simulation) -> int:
        """So many changes at least go by before it holds; 0 where it does."""
        return self._least(self.tree, self.counts(run), True)

    def _least(self, tree: Predicate, counts: Sequence[int], wanted: bool) -> int:
        """So many changes at least go by before the tree has this value."""
        if isinstance(tree, Not):
            return self._least(tree.part, counts, not wanted)
        if isinstance(tree, Rest):
            return int(value_at(tree, counts) != wanted)
        if isinstance(tree, Less):
            value = sum(a * k for a, k in zip(tree.coefficients, counts))
            far = value - tree.bound + 1 if wanted else tree.bound - value
            return max(0, -(-far // self._reach(tree)))
        parts = [self._least(part, counts, wanted) for part in (tree.left, tree.right)]
        return max(parts) if isinstance(tree, And) == wanted else min(parts)

    def _reach(self, tree: Less) -> int:
        """By how much one change moves a sum at most: two agents go from state to state, in each leaf."""
        reach = 0
        for leaf in {leaf for leaf, _ in self.places}:
            some = [a for a, place in zip(tree.coefficients, self.places) if place[0] == leaf]
            reach += 2 * (max(0, *some) - min(0, *some))
        return max(1, reach)


def condition_of(net: Net, text: str) -> Condition:
    """The condition of a text; a fault where it is none."""
    names = strict_names(text)
    if not names:
        raise AskFault(f"`{text}` is no condition on states, as in `{net.leaves[0].states[0]} = 0`")
    form, tree = read_given(text, names)
    return Condition(form, tree, tuple(place_of(net, name) for name in names))
