"""Facts as the search holds them: by identity, with arrays in place of lists, and blocks of facts that say a variable
is 0.

The cases and their order are those of `hurleyoak.proof.facts`; facts get their numbers when a tree is written out.
"""
from __future__ import annotations

from functools import cached_property
from typing import Any, Iterator, Sequence, Union

import numpy as np

from .facts import AT_LEAST, DIVIDES, EQUAL, HOLDS, NOT_DIVIDES, Fact, Space, FactKind
from ..protocol.nets import Leaf
from ..protocol.predicates import Predicate
from .ends import STILL
from .bundles import First, Goal, Node, Present, Siphon, Split, Trap, Twin

Array = Any

CHEAP, USUAL, DEAR = 1.0, 4.0, 40.0


class Row:
    """One fact; `price` says how gladly a sum uses it (less is better)."""

    __slots__ = ("kind", "variables", "numbers", "constant", "modulus", "tree", "value", "price")

    def __init__(
        self,
        kind: FactKind,
        variables: Array,
        numbers: Array,
        constant: int = 0,
        modulus: int = 0,
        price: float = USUAL,
    ) -> None:
        self.kind, self.variables, self.numbers, self.constant, self.modulus, self.price = (
            kind,
            variables,
            numbers,
            constant,
            modulus,
            price,
        )
        self.tree: Predicate | None = None
        self.value = False

    def at(self, point: Array) -> Any:
        """The sum's value at a point."""
        if len(self.variables) == 1:
            return self.numbers[0] * point[self.variables[0]] + self.constant
        return np.dot(self.numbers, point[self.variables]) + self.constant if len(self.variables) else self.constant

    def __len__(self) -> int:
        return 1


class Zeros:
    """Facts that each say that one variable is 0."""

    __slots__ = ("variables", "price", "input_part")

    def __init__(self, variables: Array, price: float = USUAL) -> None:
        self.variables, self.price = variables, price
        self.input_part: "Zeros | None" = None  # the facts on inputs alone, once they were asked for

    def __len__(self) -> int:
        return len(self.variables)


Item = Union[Row, Zeros]
Case = list[Item]
Ref = tuple[Item, int]


def row_of(fact: Fact, price: float = USUAL) -> Row:
    """A fact of `hurleyoak.proof.facts` as a row."""
    made = Row(
        fact.kind,
        np.array([a for a, _ in fact.terms], dtype=np.int64),
        np.array([k for _, k in fact.terms], dtype=np.int64),
        fact.constant,
        fact.modulus,
        price,
    )
    made.tree, made.value = fact.tree, fact.value
    return made


def fact_of(item: Item, at: int) -> Fact:
    """The fact that an item stands for at a place."""
    if isinstance(item, Zeros):
        return Fact(EQUAL, [(int(item.variables[at]), 1)])
    return Fact(
        item.kind,
        zip(item.variables.tolist(), item.numbers.tolist()),
        item.constant,
        item.modulus,
        item.tree,
        item.value,
    )


def holds(tree: Predicate, value: bool) -> Row:
    """The fact that a predicate has a value."""
    return row_of(Fact(HOLDS, tree=tree, value=value))


class Cases:
    """The variables of one leaf, its moves as arrays, and the cases of nodes."""

    def __init__(self, leaf: Leaf, goal: Goal | None = None) -> None:
        self.leaf, self.space = leaf, Space(leaf, goal)
        self.inputs, self.states, self.moves = self.space.inputs, self.space.states, self.space.moves
        self.variables = self.space.variables
        self.first_move = self.inputs + self.states
        self.ends = np.array(leaf.moves, dtype=np.int64).reshape(-1, 4).T
        self.starts = np.array(leaf.inputs, dtype=np.int64)
        self.helpers = np.array(leaf.helper_counts, dtype=np.int64)

    @cached_property
    def near(self) -> Array:
        """Which states can't stand beside which at an end, as a matrix."""
        out = np.zeros((self.states, self.states), dtype=bool)
        for p, states in enumerate(self.space.partners):
            out[p, list(states)] = True
        return out

    @cached_property
    def still(self) -> "Cases":
        """The same of crowds before a set is entered, at which nothing is dead."""
        return self if self.space.goal is STILL else Cases(self.leaf, STILL)

    def base(self, tree: Predicate, value: bool) -> Case:
        """The facts of every wrong end."""
        return [row_of(fact, CHEAP) for fact in self.space.base(tree, value)]

    def inside(self, states: Sequence[int]) -> Array:
        """A set as a mask."""
        out = np.zeros(self.states, dtype=bool)
        out[list(states)] = True
        return out

    def of(self, node: Node) -> Iterator[Case]:
        """The cases of a node other than `open`, one after the other."""
        if isinstance(node, Present):
            return self._present(node.state)
        if isinstance(node, Twin):
            return iter([[self._row(AT_LEAST, [self.inputs + node.state], [-1], 1, DEAR)]])
        if isinstance(node, Trap):
            return self._trap(node.states)
        if isinstance(node, Siphon):
            return self._siphon(node.states)
        if isinstance(node, Split):
            return iter([[row_of(fact) for fact in case] for case in self.space.cases(node)])
        return self._first(node.states) if isinstance(node, First) else iter(())

    def _row(
        self, kind: FactKind, variables: Sequence[int], numbers: Sequence[int], constant: int, price: float = USUAL
    ) -> Row:
        return Row(kind, np.array(variables, dtype=np.int64), np.array(numbers, dtype=np.int64), constant, price=price)

    def _sum(self, kind: FactKind, variables: Array, constant: int) -> Row:
        return Row(kind, variables, np.ones(len(variables), dtype=np.int64), constant)

    def _present(self, p: int) -> Iterator[Case]:
        own = self.inputs + p
        yield [Zeros(np.array([own]))]
        others = np.nonzero(self.near[p])[0]
        absent = others[others != p] + self.inputs
        here: Case = [self._row(AT_LEAST, [own], [1], -1)]
        if len(absent):
            here.append(Zeros(absent))
        if self.near[p, p]:
            here.append(self._row(EQUAL, [own], [1], -1))
        yield here

    def _both(self, states: Sequence[int]) -> tuple[Array, Array]:
        inside = self.inside(states)
        p, q, r, s = self.ends
        return inside[p] | inside[q], inside[r] | inside[s]

    def _numbers(self, mask: Array) -> Array:
        return np.nonzero(mask)[0] + self.first_move

    def _empty(self, states: Sequence[int], moves: Array, inputs: Array) -> Case:
        """These moves weren't taken, nobody started by these inputs, and nobody is in the set."""
        never = np.concatenate([self._numbers(moves), inputs])
        return [*([Zeros(never)] if len(never) else []), self._sum(EQUAL, self._counts(states), 0)]

    def _counts(self, states: Sequence[int]) -> Array:
        return np.array(states, dtype=np.int64) + self.inputs

    def _starting(self, states: Sequence[int]) -> tuple[Array, int]:
        """The inputs that start in a set, and how many helpers do."""
        return np.nonzero(self.inside(states)[self.starts])[0], int(self.helpers[list(states)].sum())

    def _unmarked(self, states: Sequence[int], moves: Array) -> Case:
        """These moves weren't taken, and nobody started in the set or is in it."""
        inputs, helpers = self._starting(states)
        case = self._empty(states, moves, inputs)
        return [*case, self._sum(EQUAL, np.zeros(0, dtype=np.int64), helpers)] if helpers else case

    def _trap(self, states: Sequence[int]) -> Iterator[Case]:
        takes, puts = self._both(states)
        yield [self._sum(AT_LEAST, self._numbers(takes & ~puts), -1)]
        yield self._unmarked(states, puts)
        yield [self._sum(AT_LEAST, self._counts(states), -1)]

    def _siphon(self, states: Sequence[int]) -> Iterator[Case]:
        takes, puts = self._both(states)
        inputs, helpers = self._starting(states)
        yield [self._sum(AT_LEAST, self._numbers(puts & ~takes), -1)]
        yield [self._sum(AT_LEAST, inputs, helpers - 1)]
        yield self._empty(states, takes, inputs[:0])

    def _first(self, states: Sequence[int]) -> Iterator[Case]:
        takes, puts = self._both(states)
        inputs, helpers = self._starting(states)
        yield [self._sum(AT_LEAST, inputs, helpers - 1)]
        yield self._empty(states, takes | puts, inputs[:0])

    def before(self, states: Sequence[int]) -> tuple[Case, Case]:
        """What holds of each crowd before a set is entered: the flow facts; and behind those of the input, that nobody
        was in it."""
        takes, puts = self._both(states)
        return [row_of(fact, CHEAP) for fact in self.space.flow()], self._unmarked(states, takes | puts)

    def about_inputs(self, item: Item) -> Item | None:
        """An item, or the part of it, that speaks of the inputs alone."""
        if isinstance(item, Row):
            return item if item.kind == HOLDS or bool((item.variables < self.inputs).all()) else None
        if item.input_part is None:
            kept = item.variables[item.variables < self.inputs]
            item.input_part = item if len(kept) == len(item.variables) else Zeros(kept, item.price)
        return item.input_part if len(item.input_part) else None


def is_modular(item: Item) -> bool:
    """Whether an item is about multiples."""
    return isinstance(item, Row) and item.kind in (DIVIDES, NOT_DIVIDES)
