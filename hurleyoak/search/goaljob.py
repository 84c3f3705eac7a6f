"""The goal of one leaf for one value: found, or given in parts that are kept."""
from __future__ import annotations

from dataclasses import replace
from typing import Sequence

from ..proof.bundles import Goal, Tree
from ..protocol.nets import Leaf
from ..protocol.predicates import Predicate
from ..text.proofreader import GoalDraft
from ..text.treereader import DraftNode
from .branch import GaveUp, WrongEnd
from .goals import NoGoal as NoGoal
from .goals import find_goal as find_goal
from .layerjob import NoLayers, fill_layers
from .solver import Trouble
from .treefinder import find_deeper, find_tree


def _nodes(
    leaf: Leaf,
    tree: Predicate,
    value: bool,
    nodes: Sequence[DraftNode] | None,
    deadline: float,
    small: float,
    goal: Goal,
) -> Tree:
    """The tree of a goal; with `first` in it where none is found without."""
    try:
        return find_tree(leaf, tree, value, nodes, deadline, small, goal)
    except (WrongEnd, GaveUp, Trouble):
        found = find_deeper(leaf, tree, value, nodes, deadline, small, goal)
        if found is None:
            raise
        return found


def fill_goal(
    leaf: Leaf,
    tree: Predicate,
    value: bool,
    draft: GoalDraft,
    nodes: Sequence[DraftNode] | None,
    deadline: float,
    small: float,
) -> Goal:
    """The goal that is given, with weights and nodes found where they are open; NoGoal where there are none."""
    try:
        layers = tuple(fill_layers(leaf, draft.layers or (), deadline))
        goal = Goal(layers, draft.sets, ())
        return replace(goal, nodes=_nodes(leaf, tree, value, nodes, deadline, small, goal))
    except NoLayers as none:
        raise NoGoal(none.told) from None
    except WrongEnd:
        raise NoGoal("with these layers and sets no tree was found: a candidate for a wrong end is left") from None
    except (GaveUp, Trouble) as none:
        raise NoGoal(str(none)) from None
