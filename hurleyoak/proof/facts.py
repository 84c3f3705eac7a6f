"""Facts about wrong ends, and the cases that each node makes (docs/guide/certificates.md).

The state equation, traps and siphons are those of Blondin, Esparza, Jaax and Meyer 2017. For a leaf with V inputs, Q
states and T moves the first variables are the inputs (0 to V-1). Then come the end crowd's counts (V to V+Q-1), and
how often each move was taken.
"""
from __future__ import annotations

from enum import Enum
from itertools import islice
from typing import Iterable, Iterator, Sequence

from ..protocol.nets import Leaf
from ..protocol.predicates import And, Less, Not, Or, Predicate, Rest
from .bundles import First, Goal, Node, Open, Present, Siphon, Split, Term, Trap, Twin
from .ends import partners_of, sets_of


class FactKind(Enum):
    """What a fact says of its sum, or that a predicate has a value."""

    AT_LEAST = "at least"
    EQUAL = "equal"
    DIVIDES = "divides"
    NOT_DIVIDES = "not divides"
    HOLDS = "holds"


AT_LEAST, EQUAL, DIVIDES, NOT_DIVIDES, HOLDS = (
    FactKind.AT_LEAST,
    FactKind.EQUAL,
    FactKind.DIVIDES,
    FactKind.NOT_DIVIDES,
    FactKind.HOLDS,
)

FACT_LIMIT = 65_536


class Fact:
    """One fact, compared by identity. A sum (terms and constant) is at least 0, is 0, or is or isn't a multiple of the
    modulus. Or a predicate has a value."""

    __slots__ = ("kind", "terms", "constant", "modulus", "tree", "value")

    def __init__(
        self,
        kind: FactKind,
        terms: Iterable[Term] = (),
        constant: int = 0,
        modulus: int = 0,
        tree: Predicate | None = None,
        value: bool = False,
    ) -> None:
        self.kind, self.terms, self.constant, self.modulus = kind, tuple(terms), constant, modulus
        self.tree, self.value = tree, value


def at_least(terms: Iterable[Term], constant: int) -> Fact:
    """The sum is at least 0."""
    return Fact(AT_LEAST, terms, constant)


def equal(terms: Iterable[Term], constant: int = 0) -> Fact:
    """The sum is 0."""
    return Fact(EQUAL, terms, constant)


class Space:
    """The variables of one leaf, the base facts, and the cases of nodes; of a tree for the leaf, or for a goal."""

    def __init__(self, leaf: Leaf, goal: Goal | None = None) -> None:
        self.leaf, self.goal = leaf, goal
        self.partners = partners_of(leaf, goal)
        self.inputs, self.states, self.moves = len(leaf.inputs), len(leaf.states), len(leaf.moves)
        self.variables = self.inputs + self.states + self.moves

    def count(self, state: int) -> int:
        """The variable of the agents in a state at the end."""
        return self.inputs + state

    def taken(self, move: int) -> int:
        """The variable of how often a move was taken."""
        return self.inputs + self.states + move

    def flow(self) -> list[Fact]:
        """The flow fact of each state."""
        rows: list[dict[int, int]] = [{self.count(q): -1} for q in range(self.states)]
        for i, q in enumerate(self.leaf.inputs):
            rows[q][i] = 1
        for t in range(self.moves):
            for q, k in self.leaf.change(t).items():
                rows[q][self.taken(t)] = k
        return [equal(sorted(row.items()), h) for row, h in zip(rows, self.leaf.helper_counts)]

    def base(self, tree: Predicate, value: bool) -> list[Fact]:
        """The facts of every wrong end: flow, two agents, the predicate, somebody is wrong."""
        return [
            *self.flow(),
            at_least(((i, 1) for i in range(self.inputs)), len(self.leaf.helpers) - 2),
            Fact(HOLDS, tree=tree, value=value),
            *self.wrong(value),
        ]

    def wrong(self, value: bool) -> list[Fact]:
        """That an agent has another output; with a goal, that for each of its sets an agent is outside."""
        if self.goal is None:
            return [at_least(((self.count(q), 1) for q, b in enumerate(self.leaf.outputs) if b != value), -1)]
        return [
            at_least(((self.count(q), 1) for q in range(self.states) if q not in states), -1)
            for states in sets_of(self.leaf, value, self.goal)
        ]

    def is_in_range(self, node: Node) -> bool:
        """Whether the states and variables that a node names are there (facts are the branch's matter)."""
        if isinstance(node, (Present, Twin)):
            return node.state < self.states
        if isinstance(node, (Trap, Siphon, First)):
            return all(q < self.states for q in node.states)
        return not isinstance(node, Split) or all(a < self.variables for a, _ in node.terms)

    def cases(self, node: Node, most: int = 3) -> list[list[Fact]]:
        """The facts of each case of a node other than `open`, or of the first ones alone; none at `lin` and
        `residue`. Those of `first` are the two behind its entries."""
        return list(islice(self._cases(node), most))

    def _cases(self, node: Node) -> Iterator[list[Fact]]:
        if isinstance(node, Present):
            return self._present(node.state)
        if isinstance(node, Twin):
            return iter([[at_least([(self.count(node.state), -1)], 1)]])
        if isinstance(node, Trap):
            return self._trap(node.states)
        if isinstance(node, Siphon):
            return self._siphon(node.states)
        if isinstance(node, Split):
            return self._split(node.terms, node.constant)
        return self._first(node.states) if isinstance(node, First) else iter(())

    def _present(self, p: int) -> Iterator[list[Fact]]:
        own = [(self.count(p), 1)]
        yield [equal(own)]
        partners = self.partners[p]
        alone = [at_least(own, -1)] + [equal([(self.count(q), 1)]) for q in sorted(partners) if q != p]
        yield alone + [equal(own, -1)] if p in partners else alone

    def _takes_puts(self, states: set[int]) -> tuple[list[bool], list[bool]]:
        moves = self.leaf.moves
        return [m[0] in states or m[1] in states for m in moves], [m[2] in states or m[3] in states for m in moves]

    def _trap(self, key: Sequence[int]) -> Iterator[list[Fact]]:
        takes, puts = self._takes_puts(set(key))
        yield [at_least(((self.taken(t), 1) for t in range(self.moves) if takes[t] and not puts[t]), -1)]
        yield [equal([(self.taken(t), 1)]) for t in range(self.moves) if puts[t]] + self.unmarked(key)
        yield [at_least(((self.count(q), 1) for q in key), -1)]

    def unmarked(self, key: Sequence[int]) -> list[Fact]:
        """That nobody starts in a set, and nobody is in it."""
        states = set(key)
        helpers = sum(self.leaf.helper_counts[q] for q in key)
        out = [equal([(i, 1)]) for i, q in enumerate(self.leaf.inputs) if q in states]
        out.append(equal((self.count(q), 1) for q in key))
        return out + [equal((), helpers)] if helpers else out

    def _siphon(self, key: Sequence[int]) -> Iterator[list[Fact]]:
        takes, puts = self._takes_puts(set(key))
        yield [at_least(((self.taken(t), 1) for t in range(self.moves) if puts[t] and not takes[t]), -1)]
        yield [self._started(key)]
        never = [equal([(self.taken(t), 1)]) for t in range(self.moves) if takes[t]]
        yield never + [equal((self.count(q), 1) for q in key)]

    def _started(self, key: Sequence[int]) -> Fact:
        """That somebody starts in a set."""
        helpers = sum(self.leaf.helper_counts[q] for q in key)
        return at_least(((i, 1) for i, q in enumerate(self.leaf.inputs) if q in set(key)), helpers - 1)

    def _first(self, key: Sequence[int]) -> Iterator[list[Fact]]:
        yield [self._started(key)]
        yield [*self.untouched(key), equal((self.count(q), 1) for q in key)]

    def untouched(self, key: Sequence[int]) -> list[Fact]:
        """That no move was taken that takes a state of a set or puts one."""
        takes, puts = self._takes_puts(set(key))
        return [equal([(self.taken(t), 1)]) for t in range(self.moves) if takes[t] or puts[t]]

    def entering(self, key: Sequence[int]) -> list[int]:
        """The moves that put a state of a set and take none."""
        takes, puts = self._takes_puts(set(key))
        return [t for t in range(self.moves) if puts[t] and not takes[t]]

    def _split(self, terms: Sequence[Term], constant: int) -> Iterator[list[Fact]]:
        row = [(a, k) for a, k in terms if k]
        negative = [(a, -k) for a, k in row]
        yield from ([at_least(row, constant - 1)], [equal(row, constant)], [at_least(negative, -constant - 1)])


def open_cases(fact: Fact) -> list[list[Fact]]:
    """The cases of `open` at a fact that says what value a predicate has."""
    tree, value = fact.tree, fact.value
    if isinstance(tree, Less):
        row = [(i, k) for i, k in enumerate(tree.coefficients) if k]
        if value:
            return [[at_least([(i, -k) for i, k in row], tree.bound - 1)]]
        return [[at_least(row, -tree.bound)]]
    if isinstance(tree, Rest):
        row = [(i, k) for i, k in enumerate(tree.coefficients) if k]
        return [[Fact(DIVIDES if value else NOT_DIVIDES, row, -tree.rest, tree.modulus)]]
    if isinstance(tree, Not):
        return [[Fact(HOLDS, tree=tree.part, value=not value)]]
    assert isinstance(tree, (And, Or))
    left, right = Fact(HOLDS, tree=tree.left, value=value), Fact(HOLDS, tree=tree.right, value=value)
    return [[left, right]] if isinstance(tree, And) == value else [[left], [right]]


def cases_of(space: Space, facts: Sequence[Fact], node: Node) -> list[list[Fact]]:
    """The cases of any node in a branch with these facts; none where it has none, or is refused."""
    if isinstance(node, Open):
        fact = facts[node.fact] if node.fact < len(facts) else None
        return open_cases(fact) if fact is not None and fact.kind == HOLDS else []
    return space.cases(node) if space.is_in_range(node) else []
