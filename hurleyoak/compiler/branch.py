"""The facts of one branch of a tree, by what they say: their numbers are those of docs/guide/certificates.md."""
from __future__ import annotations

from dataclasses import dataclass
from enum import Enum
from typing import Callable, Iterable, Mapping

from ..proof.bundles import Linear, Node, Open, Present, Residue, Siphon, Split, Trap, Twin
from .drafts import LeafDraft


class Says(Enum):
    """What a fact says; most are said of one state."""

    FLOW = "as many agents came to the state as are there"
    AGENTS = "there are two agents"
    PREDICATE = "the predicate's value, closed"
    WRONG = "an agent has the wrong output"
    VALUE = "the predicate's value, opened"
    HERE = "an agent is in the state"
    ABSENT = "no agent is in the state"
    SINGLE = "at most one agent is in the state, said by a twin"
    ALONE = "at most one agent is in the state, as it is present"
    LEAVES = "a move has left the set"
    NEVER = "the move was never made"
    UNUSED = "no agent of the variable was there"
    EMPTY = "the set is empty at the end"
    HELPED = "no helper starts in the set"
    SOME = "an agent is in the set at the end"
    ENTERS = "a move has entered the set"
    STARTS = "an agent started in the set"
    ABOVE = "the sum is above the number"
    EQUAL = "the sum is the number"
    BELOW = "the sum is below the number"
    HUB = "an agent is in the first trap"


Fact = tuple[Says, int]
Sum = dict[Fact, int]
OF_ALL = 0  # what a fact that speaks of no state is numbered by
AGENTS, PREDICATE, WRONG, VALUE = ((says, OF_ALL) for says in (Says.AGENTS, Says.PREDICATE, Says.WRONG, Says.VALUE))
LEAVES, EMPTY, HELPED, SOME = ((says, OF_ALL) for says in (Says.LEAVES, Says.EMPTY, Says.HELPED, Says.SOME))
ENTERS, STARTS, HUB = ((says, OF_ALL) for says in (Says.ENTERS, Says.STARTS, Says.HUB))


def flows(worth: Mapping[int, int]) -> Sum:
    """The sum of the flows of these states, each so many times."""
    return {(Says.FLOW, state): times for state, times in worth.items()}


def said_of(says: Says, worth: Mapping[int, int]) -> Sum:
    """The sum of what is said of these states, each so many times."""
    return {(says, state): times for state, times in worth.items()}


@dataclass(frozen=True)
class Branch:
    """The numbers of the facts of a branch, and the next free one."""

    draft: LeafDraft
    next: int
    numbers: Mapping[Fact, int]

    @staticmethod
    def root(draft: LeafDraft) -> Branch:
        """The facts that every tree begins with."""
        states = range(len(draft.states))
        base = [*((Says.FLOW, state) for state in states), AGENTS, PREDICATE, WRONG]
        return Branch(draft, len(base), {fact: i for i, fact in enumerate(base)})

    def plus(self, facts: Iterable[Fact]) -> Branch:
        """The branch with more facts; one that is said again keeps its first number."""
        numbers = dict(self.numbers)
        count = 0
        for count, fact in enumerate(facts, start=1):
            numbers.setdefault(fact, self.next + count - 1)
        return Branch(self.draft, self.next + count, numbers)

    def calling(self, fact: Fact, also: Fact) -> Branch:
        """The branch in which a fact has another name too."""
        return Branch(self.draft, self.next, {**self.numbers, also: self.numbers[fact]})

    def last_as(self, fact: Fact) -> Branch:
        """The branch in which the last fact has this name."""
        return Branch(self.draft, self.next, {**self.numbers, fact: self.next - 1})

    def opened(self) -> tuple[Node, Branch]:
        """Opens the predicate, a sum."""
        return Open(self.numbers[PREDICATE]), self.plus([VALUE])

    def present(self, state: int) -> tuple[Node, Branch, Branch]:
        """Somebody is in the state, or nobody: the branch where nobody is, and where somebody is."""
        met = self.draft.meets[state]
        here: list[Fact] = [(Says.HERE, state), *((Says.ABSENT, q) for q in sorted(met) if q != state)]
        if state in met:
            here.append((Says.ALONE, state))
        return Present(state), self.plus([(Says.ABSENT, state)]), self.plus(here)

    def twin(self, state: int) -> tuple[Node, Branch]:
        """At most one is in a state that meets itself."""
        return Twin(state), self.plus([(Says.SINGLE, state)])

    def trap(self, states: Iterable[int]) -> tuple[Node, Branch, Branch, Branch]:
        """Three branches: a move has left the set, nothing ever came into it, somebody is in it."""
        chosen = set(states)
        never = self._never(chosen, True)
        return Trap(tuple(sorted(chosen))), self.plus([LEAVES]), self.plus(never), self.plus([SOME])

    def siphon(self, states: Iterable[int]) -> tuple[Node, Branch, Branch, Branch]:
        """Three branches: a move has entered the set, somebody started in it, it was always empty."""
        chosen = set(states)
        never = self._never(chosen, False)
        return Siphon(tuple(sorted(chosen))), self.plus([ENTERS]), self.plus([STARTS]), self.plus(never)

    def _never(self, states: set[int], is_trap: bool) -> list[Fact]:
        draft = self.draft
        facts: list[Fact] = [(Says.NEVER, t) for t in draft.moves_where(states, is_trap)]
        if is_trap:
            facts += [(Says.UNUSED, variable) for variable, state in enumerate(draft.inputs) if state in states]
        facts.append(EMPTY)
        if is_trap and any(helper in states for helper in draft.helpers):
            facts.append(HELPED)
        return facts

    def split(self, row: list[tuple[int, int]], number: int) -> tuple[Node, Branch, Branch, Branch]:
        """Whether a sum of variables and states is above, at or below a number."""
        above, equal, below = ((says, number) for says in (Says.ABOVE, Says.EQUAL, Says.BELOW))
        return Split(tuple(row), -number), self.plus([above]), self.plus([equal]), self.plus([below])

    def lin(self, terms: Sum) -> Node:
        """Closes the branch: the sum can't be at least 0."""
        return Linear(self._terms(terms))

    def residue(self, modulus: int, terms: Sum) -> Node:
        """Closes the branch modulo a number."""
        return Residue(modulus, self._terms(terms))

    def _terms(self, terms: Sum) -> tuple[tuple[int, int], ...]:
        return tuple((self.numbers[fact], times) for fact, times in terms.items() if times)

    def wrong_is_absent(self, value: bool) -> Node:
        """Closes the branch: all states with another output than this are absent."""
        others = {state: -1 for state, output in enumerate(self.draft.outputs) if output != value}
        return self.lin({WRONG: 1, **said_of(Says.ABSENT, others)})


def in_turn(
    branch: Branch,
    states: Iterable[int],
    here: Callable[[int, Branch], list[Node]],
    rest: Callable[[Branch], list[Node]],
) -> list[Node]:
    """Each state in turn is present, which `here` refutes; `rest` goes on where all are absent."""
    nodes: list[Node] = []
    ends: list[list[Node]] = []
    for state in states:
        node, branch, with_state = branch.present(state)
        nodes.append(node)
        ends.append(here(state, with_state))
    return [*nodes, *rest(branch), *(node for end in reversed(ends) for node in end)]
