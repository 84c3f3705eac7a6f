"""The work of `find` cut into tasks: small crowds, layers, and two trees or goals for each leaf."""
from __future__ import annotations

import time
from dataclasses import dataclass, field, replace
from enum import StrEnum
from typing import Any, Sequence

from ..protocol.nets import Leaf, Net
from ..protocol.predicates import Predicate, value_at
from ..text.proofreader import GoalDraft, LayerDraft
from ..text.treereader import DraftNode
from ..proof.bundles import Goal, Layer, Tree
from .candidates import candidate_order, flaw_by, net_flaw_by
from . import howfar
from .explore import explore, by_arrays
from .flaws import RESTLESS, Flaw, Tried
from .limits import clock
from .ordering import Order
from .whole import system_of


class TaskKind(StrEnum):
    """What a task looks for."""

    FLAW = "small crowds"
    LAYERS = "layers"
    TRUE = "true"
    FALSE = "false"
    GOAL_TRUE = "goal for true"
    GOAL_FALSE = "goal for false"


FLAW, LAYERS, TRUE, FALSE = TaskKind.FLAW, TaskKind.LAYERS, TaskKind.TRUE, TaskKind.FALSE
GOAL_TRUE, GOAL_FALSE = TaskKind.GOAL_TRUE, TaskKind.GOAL_FALSE

FLAW_SECONDS = 2.0  # for small crowds, at most a tenth of all
FLAW_AGENTS = 7
CANDIDATE_SECONDS = 10.0
ENTRY_SECONDS = 15.0


@dataclass
class Task:
    """One task of one leaf, or of the whole net; `net` and `whole` are the net and its predicate, and `assumed` what
    its file assumes of inputs."""

    kind: TaskKind
    at: int
    leaf: Leaf
    tree: Predicate
    seconds: float
    small: float
    nodes: Sequence[DraftNode] | None = None
    layers: Sequence[LayerDraft] | None = None
    goal: GoalDraft | None = None
    net: Net | None = None
    whole: Predicate | None = None
    tame: bool = False  # whether its layers have to be tame
    assumed: tuple[Predicate, ...] = ()
    depth: int = 0  # of `first` in a goal's tree, where the tree for all moves needs some

    def meets(self, counts: Sequence[int]) -> bool:
        """Whether an input is one of those that count."""
        return all(value_at(tree, counts) for tree in self.assumed)

    def like(self, kind: TaskKind, **parts: Any) -> "Task":
        """A task of the same leaf with what is given of its part."""
        return replace(self, kind=kind, **parts)


class Why(StrEnum):
    """Why a task was not done."""

    RESTLESS = "restless"
    MISSES = "misses"
    WRONG_END = "wrong end"
    NO_LAYERS = "no layers"
    NO_GOAL = "no goal"
    GAVE_UP = "gave up"


@dataclass
class Result:
    """What came of a task; `why` is None if it was done.

    `flaw` is one of the whole net, `missed` one of a leaf for its own predicate. `left_out` is a flaw of the net at an
    input that its file leaves out: no counterexample, but no certificate is possible either.
    """

    kind: TaskKind
    at: int
    seconds: float = 0.0
    layers: list[Layer] = field(default_factory=list)
    tree: Tree = ()
    goal: Goal | None = None
    flaw: Flaw | None = None
    left_out: Flaw | None = None
    missed: Flaw | None = None
    restless: Flaw | None = None
    tried: Tried = field(default_factory=Tried)
    why: Why | None = None
    told: str = ""
    point: list[int] = field(default_factory=list)
    order: Order | None = None
    crowds: int | None = None
    moves: list[int] = field(default_factory=list)
    are_none: bool = False

    @property
    def reason(self) -> str:
        """Why in words, empty if the task was done."""
        return self.why.value if self.why else ""


WHOLE = -1  # in the place of a leaf's number: the whole net


def _layers(task: Task, result: Result, deadline: float) -> None:
    from .layerjob import NoLayers, fill_layers, find_layers

    try:
        result.layers = (
            find_layers(task.leaf, deadline, task.tame)
            if task.layers is None
            else fill_layers(task.leaf, task.layers, deadline, task.tame)
        )
    except NoLayers as none:
        result.why, result.told, result.moves, result.are_none = Why.NO_LAYERS, none.told, none.moves, none.is_shown


def _tree(task: Task, result: Result, deadline: float) -> None:
    from .branch import GaveUp, WrongEnd
    from .solver import Trouble
    from .treefinder import find_tree

    try:
        result.tree = find_tree(task.leaf, task.tree, task.kind == TRUE, task.nodes, deadline, task.small)
    except WrongEnd as end:
        result.why, result.point = Why.WRONG_END, end.point
        if _ordered(task, result) or _by_entries(task, result, deadline):
            return
        found = by_arrays()(
            task.leaf, task.tree, tuple(end.point[: len(task.leaf.inputs)]), clock() + CANDIDATE_SECONDS
        )
        if isinstance(found, Flaw) and found.kind == RESTLESS:
            result.why, result.restless = Why.RESTLESS, found
        elif isinstance(found, Flaw):
            _missed(task, result, found)
        else:
            result.crowds = found
    except (GaveUp, Trouble) as none:
        result.why, result.told = Why.GAVE_UP, str(none)
        _by_entries(task, result, deadline)


def _by_entries(task: Task, result: Result, deadline: float) -> bool:
    """Whether a tree is found with `first` in it, which is tried only where none is found without."""
    from .treefinder import find_deeper

    end = min(deadline, clock() + ENTRY_SECONDS)
    found = find_deeper(task.leaf, task.tree, task.kind == TRUE, task.nodes, end, task.small)
    if found is not None:
        result.tree, result.why, result.told, result.point, result.order = found, None, "", [], None
    return found is not None


def _ordered(task: Task, result: Result) -> bool:
    """Whether the candidate's own moves lead to a flaw: of the net, or of the leaf alone."""
    assert task.net is not None and task.whole is not None
    result.order = candidate_order(task.leaf, result.point, CANDIDATE_SECONDS)
    counts = tuple(result.point[: len(task.leaf.inputs)])
    missed = flaw_by(task.leaf, task.tree, counts, result.order) if result.order.is_found else None
    if missed is None:
        return False
    result.flaw = net_flaw_by(task.net, task.whole, task.at, missed)
    if result.flaw is not None:
        result.why = None
    else:
        _missed(task, result, missed)
    return True


def _missed(task: Task, result: Result, missed: Flaw) -> None:
    """A leaf's flaw: it is one of the net where the net is wrong at this input too."""
    assert task.net is not None and task.whole is not None
    found = by_arrays()(system_of(task.net), task.whole, missed.counts, clock() + CANDIDATE_SECONDS)
    if isinstance(found, Flaw) and found.kind != RESTLESS:
        result.why, result.flaw = None, found
    else:
        result.why, result.missed = Why.MISSES, missed


def _goal(task: Task, result: Result, deadline: float) -> None:
    from .goaljob import NoGoal, fill_goal, find_goal

    value = task.kind == GOAL_TRUE
    try:
        if task.goal is None or task.goal.layers is None:
            result.goal = find_goal(task.leaf, task.tree, value, deadline, task.small, task.depth)
        else:
            result.goal = fill_goal(task.leaf, task.tree, value, task.goal, task.nodes, deadline, task.small)
    except NoGoal as none:
        result.why, result.told = Why.NO_GOAL, str(none)


def _small(task: Task, result: Result) -> None:
    """Small crowds: of the whole net, or of a leaf for its own predicate."""
    assert task.net is not None and task.whole is not None
    system, tree = (system_of(task.net), task.whole) if task.at == WHOLE else (task.leaf, task.tree)
    seconds = min(FLAW_SECONDS, task.seconds / 10)
    flaw, result.tried = explore(
        system, tree, FLAW_AGENTS, seconds, lambda tried, agents: howfar.note((agents - 1) / FLAW_AGENTS), task.meets
    )
    if flaw is None and task.assumed:
        flaw, _ = explore(system, tree, FLAW_AGENTS, seconds, meets=lambda counts: not task.meets(counts))
    if flaw is not None and task.at == WHOLE:
        result.flaw = flaw
    elif flaw is not None:
        _missed(task, result, flaw)
    elif result.tried.restless is not None:
        result.why, result.restless = Why.RESTLESS, result.tried.restless


def cut(task: Task, told: str) -> Result:
    """What comes of a task that was ended. Small crowds that weren't tried are no reason against a proof."""
    layers = {LAYERS: Why.NO_LAYERS, GOAL_TRUE: Why.NO_GOAL, GOAL_FALSE: Why.NO_GOAL}
    why = None if task.kind == FLAW else layers.get(task.kind, Why.GAVE_UP)
    return Result(task.kind, task.at, why=why, told=told)


def work(task: Task) -> Result:
    """Does one task."""
    start = time.process_time()
    result = Result(task.kind, task.at)
    deadline = clock() + task.seconds
    if task.kind == FLAW:
        _small(task, result)
    elif task.kind == LAYERS:
        _layers(task, result, deadline)
    elif task.kind in (GOAL_TRUE, GOAL_FALSE):
        _goal(task, result, deadline)
    else:
        _tree(task, result, deadline)
    if result.flaw is not None and not task.meets(result.flaw.counts):
        result.flaw, result.left_out = None, result.flaw
    result.seconds = time.process_time() - start
    return result
