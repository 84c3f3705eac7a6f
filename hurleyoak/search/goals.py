"""A goal for one value of a leaf's predicate: layers of some moves, sets of states that stay, and a tree."""
from __future__ import annotations

import random
from dataclasses import replace
from typing import Iterator

from ..proof.bundles import Goal, Linear, Residue, Tree
from ..proof.checking import goal_fault
from ..proof.ends import states_with
from ..proof.staying import stay_of
from ..protocol.nets import Leaf
from ..protocol.predicates import Predicate
from .branch import GaveUp, WrongEnd
from .howfar import note
from .keeping import kept_sets
from .limits import clock
from .ranked import dropped, greatest, inserted, layers_of, listed, orders
from .solver import Trouble
from .treefinder import find_tree
from .waking import Moves

TRIES = 60
EARLY, EARLY_SECONDS = 6, 1.0  # choices of moves behind which a tree for all moves is looked for
ENTRY_SECONDS = 6.0  # for trees with `first`, where no other was found
DEEPER_SECONDS = 15.0  # for a goal whose tree has to have `first`
TREE_SECONDS = 15.0
MANY = 150  # moves above which none are inserted one by one
SEED = 1


class NoGoal(Exception):
    """No goal was found; the text says how far the search went."""


class GoalFinder:
    """Searches a goal: nobody is ever wrong; the greatest layers; then layers of moves that are chosen in several
    ways."""

    def __init__(
        self, leaf: Leaf, tree: Predicate, value: bool, deadline: float, small: float, depth: int = 0
    ) -> None:
        self.leaf, self.tree, self.value, self.deadline, self.small = leaf, tree, value, deadline, small
        self.right = frozenset(states_with(leaf, value))
        self.rng = random.Random(SEED)
        self.missing: dict[int, int] = {}  # how often a move was possible at a candidate for a wrong end
        self.seen: set[Moves] = set()
        self.failed: list[list[Moves]] = []
        self.depth = depth  # how many `first` a tree may have one below the other

    def found(self) -> Goal:
        """A goal, or NoGoal. Trees with `first` in them are tried where the others failed."""
        tries = 0
        for groups in self._choices():
            if tries == TRIES or clock() > self.deadline:
                break
            if listed(groups) in self.seen:
                tries += 1
                continue
            self.seen.add(listed(groups))
            goal = self._with(groups)
            if goal is not None:
                return goal
            self.failed.append(groups)
            tries += 1
            note(tries / TRIES)
            if tries == EARLY and self._needs_entries():
                return find_goal(self.leaf, self.tree, self.value, self.deadline, self.small, 1)
        goal = self._by_entries()
        if goal is None:
            raise NoGoal(f"{tries} choices of moves were tried")
        return goal

    def _needs_entries(self) -> bool:
        """Whether even a tree for all moves has to have `first`."""
        if self.depth:
            return False
        try:
            find_tree(self.leaf, self.tree, self.value, None, min(self.deadline, clock() + EARLY_SECONDS), 0.0)
        except WrongEnd:
            return True
        except (GaveUp, Trouble):
            pass
        return False

    def _by_entries(self) -> Goal | None:
        """A goal by a choice of moves that failed, with a tree that has `first` in it."""
        if self.depth:
            return None
        self.deadline, self.depth = min(self.deadline, clock() + ENTRY_SECONDS), 1
        for groups in self.failed:
            goal = self._with(groups) if clock() < self.deadline else None
            if goal is not None:
                return goal
        return None

    def _out(self, t: int) -> int:
        """How many agents a move puts among wrong states, less those that it takes from them."""
        move = self.leaf.moves[t]
        return sum(q not in self.right for q in move[2:]) - sum(q not in self.right for q in move[:2])

    def _choices(self) -> Iterator[list[Moves]]:
        yield []
        yield greatest(self.leaf, self.deadline)
        by_order = orders(self.leaf, self._out, self.missing, self.rng)
        good = [t for t in self.leaf.active if self._out(t) <= 0]
        while True:
            yield dropped(self.leaf, good, self.rng, self._out, self.deadline)
            if len(self.leaf.active) <= MANY:
                yield inserted(self.leaf, next(by_order), self.deadline)
            yield dropped(self.leaf, self.leaf.active, self.rng, lambda _: 0, self.deadline)

    def _with(self, groups: list[Moves]) -> Goal | None:
        """The goal with the layers of these groups, if there is one."""
        layers = layers_of(self.leaf, groups, self.deadline)
        if layers is None:
            return None
        for sets in self._sets(listed(groups)):
            goal = self._closed(Goal(layers, sets, ()))
            if goal is not None:
                return self._smaller(goal)
        return None

    def _sets(self, moves: Moves) -> Iterator[tuple[tuple[int, ...], ...]]:
        """The sets that a goal with these moves may have: one of all states with the output, or several."""
        if stay_of(self.leaf, moves, sorted(self.right)) is not None:
            yield ()
            return
        several = kept_sets(self.leaf, moves, self.right, self.rng, self.deadline)
        if several:
            yield tuple(several)

    def _closed(self, goal: Goal) -> Goal | None:
        """The goal with a tree, if one is found; what candidates for ends lack is noted."""
        end = min(self.deadline, clock() + TREE_SECONDS)
        try:
            nodes = find_tree(self.leaf, self.tree, self.value, None, end, self.small, goal, self.depth)
        except WrongEnd as wrong:
            self._note_missing(goal, wrong.point)
            return None
        except (GaveUp, Trouble):
            return None
        made = replace(goal, nodes=nodes)
        return made if goal_fault(self.leaf, self.tree, self.value, made) is None else None

    def _note_missing(self, goal: Goal, point: list[int]) -> None:
        first = len(self.leaf.inputs)
        end = point[first : first + len(self.leaf.states)]
        for t in self.leaf.active:
            p, q = self.leaf.moves[t][:2]
            if t not in goal.listed and end[p] and end[q] and (p != q or end[p] > 1):
                self.missing[t] = self.missing.get(t, 0) + 1

    def _smaller(self, goal: Goal) -> Goal:
        """The same goal without sets that its tree doesn't name, where a tree is found without them."""
        used = _used_facts(goal.nodes)
        first = len(self.leaf.states) + 2
        sets = tuple(one for j, one in enumerate(goal.sets) if first + j in used)
        if not sets or sets == goal.sets:
            return goal
        return self._closed(replace(goal, sets=sets, nodes=())) or goal


def _used_facts(nodes: Tree) -> set[int]:
    return {fact for node in nodes if isinstance(node, (Linear, Residue)) for fact, _ in node.terms}


def find_goal(leaf: Leaf, tree: Predicate, value: bool, deadline: float, small: float, depth: int = 0) -> Goal:
    """A goal for a value, or NoGoal. With a depth its tree has `first` from the beginning, as no tree does without."""
    if depth:
        deadline = min(deadline, clock() + DEEPER_SECONDS)
    return GoalFinder(leaf, tree, value, deadline, small, depth).found()
