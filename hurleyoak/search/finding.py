"""Looks for the proofs of all leaves side by side, and says what came of it."""
from __future__ import annotations

import time
from dataclasses import dataclass, field
from importlib import import_module
from typing import Callable, Iterator

from ..faults import InputFault
from ..text.loaded import Loaded, predicates_differ
from ..text.proofreader import ProofDraft
from ..proof.bundles import Bundle, LeafGoals, LeafProof, Part
from .flaws import Flaw
from .howfar import Going
from .goaltasks import leaf_tasks, look_for_goals
from .larger import larger_flaw
from .limits import clock
from .whole import system_of
from .jobs import FALSE, FLAW, GOAL_FALSE, GOAL_TRUE, LAYERS, TRUE, WHOLE, Result, Task, TaskKind, Why, work
from .processes import results

LARGER_SECONDS = 4.0  # for larger crowds where no proof was found: at most this part of all
LARGER_PART = 15
ORDER = (
    Why.MISSES,
    Why.RESTLESS,
    Why.NO_LAYERS,
    Why.NO_GOAL,
    Why.WRONG_END,
)  # which failure is told where there are several


@dataclass
class Outcome:
    """A bundle that no one has certified yet; or a flaw of the net; or failures, the one to be told first. `left_out` is
    a flaw at an input that the file leaves out."""

    bundle: Bundle | None = None
    flaw: Flaw | None = None
    left_out: Flaw | None = None
    failures: list[Result] = field(default_factory=list)
    done: dict[tuple[TaskKind, int], Result] = field(default_factory=dict)
    seconds: float = 0.0

    @property
    def is_flawed(self) -> bool:
        """Whether the net is wrong at some input, so that no certificate is possible."""
        return self.flaw is not None or self.left_out is not None

    def told(self) -> list[str]:
        """What was found of each leaf, in a line."""
        out = []
        for i in range(1 + max(at for _, at in self.done)):
            if (GOAL_TRUE, i) in self.done:
                out += [f"leaf {i}: {_goal_told(self.done[kind, i])}" for kind in (GOAL_TRUE, GOAL_FALSE)]
                continue
            layers, true, false = (self.done[kind, i] for kind in (LAYERS, TRUE, FALSE))
            bound = sum(layer.spread for layer in layers.layers)
            out.append(
                f"leaf {i}: {len(layers.layers)} layer{'' if len(layers.layers) == 1 else 's'}, bound"
                f" {bound} ({layers.seconds:.1f} s); trees of {len(true.tree)} and {len(false.tree)} nodes"
                f" ({true.seconds:.1f} s, {false.seconds:.1f} s)"
            )
        return out

    def so_far(self) -> list[str]:
        """What was found of the leaves where not all was, in a line each."""
        return [
            f"found so far: leaf {at}: " + (_goal_told(result) if result.goal else _part_told(result))
            for (_, at), result in sorted(self.done.items())
            if not result.why and (result.layers or result.tree or result.goal)
        ]


def _part_told(result: Result) -> str:
    return f"{len(result.layers)} layers" if result.layers else f"the tree for {result.kind}, {len(result.tree)} nodes"


def _goal_told(result: Result) -> str:
    goal = result.goal
    assert goal is not None
    layers = f"{len(goal.layers)} layer{'' if len(goal.layers) == 1 else 's'}"
    return (
        f"{result.kind}: {layers} of {len(goal.listed)} moves, bound {goal.bound}; a tree of {len(goal.nodes)} nodes"
        f" ({result.seconds:.1f} s)"
    )


def drafts_of(loaded: Loaded, anew: bool) -> list[ProofDraft]:
    """What is written of the leaves' proofs: nothing where they are looked for anew. InputFault where it names what
    isn't there."""
    if anew or loaded.drafts is None:
        return [ProofDraft() for _ in loaded.net.leaves]
    for draft in loaded.drafts:
        for note in draft.notes:
            raise note.place.fault(note.told).of_input(loaded.name)
    return loaded.drafts


def tasks_of(loaded: Loaded, drafts: list[ProofDraft], seconds: float, small: float, tame: bool = False) -> list[Task]:
    """The tasks, small crowds first, as they answer soonest: those of the whole net, and of each leaf where there are
    several."""
    shared = shared_tasks(loaded, seconds, small, tame)
    tasks = [whole_task(loaded, seconds, small)]
    if len(shared) > 1:
        tasks += [task.like(FLAW) for task in shared]
    for task, draft in zip(shared, drafts):
        tasks += leaf_tasks(task, draft)
    return tasks


def shared_tasks(loaded: Loaded, seconds: float, small: float, tame: bool = False) -> list[Task]:
    """For each leaf what its tasks share."""
    trees, net, whole = loaded.part_trees(), loaded.net, loaded.whole_tree()
    assumed = loaded.assumed_trees
    return [
        Task(LAYERS, i, leaf, tree, seconds, small, net=net, whole=whole, assumed=assumed, tame=tame)
        for i, (leaf, tree) in enumerate(zip(net.leaves, trees))
    ]


def whole_task(loaded: Loaded, seconds: float, small: float) -> Task:
    """Small crowds of the whole net."""
    net, whole = loaded.net, loaded.whole_tree()
    assumed = loaded.assumed_trees
    return Task(FLAW, WHOLE, net.leaves[0], whole, seconds, small, net=net, whole=whole, assumed=assumed)


def find(
    loaded: Loaded,
    seconds: float,
    small: float,
    jobs: int,
    anew: bool = False,
    begins: Callable[[list[Task]], None] | None = None,
    came: Callable[[Result], None] | None = None,
    going: Going | None = None,
    tame: bool = False,
) -> Outcome:
    """What came of it; InputFault where the input has no predicate, or predicates that don't fit. With `tame` no other
    layers will do, and no goals.

    It ends after so many seconds, by the wall and by the processor. `begins` is told which tasks there are, `came` what
    came of each, and `going` how far each is.
    """
    start = time.time()
    spare = min(LARGER_SECONDS, seconds / LARGER_PART)
    seconds -= spare
    end = time.monotonic() + seconds
    if loaded.predicate is not None and (loaded.parts is None or predicates_differ(loaded)):
        tried = work(whole_task(loaded, seconds, small))
        out = Outcome(flaw=tried.flaw, left_out=tried.left_out, seconds=time.time() - start)
        if out.is_flawed:
            return out
        loaded.part_trees()
        raise InputFault(
            "the leaves' predicates combine to another tree than the whole predicate's (docs/guide/certificates.md,"
            ' "How a predicate becomes a tree")'
        )
    drafts = drafts_of(loaded, anew)
    tasks = tasks_of(loaded, drafts, seconds, small, tame)
    # (before processes are made, so that they share what is loaded, and a missing package is told once)
    import_module(".highs", __package__)
    import_module(".layerjob", __package__)
    import_module(".treefinder", __package__)
    import_module(".goaljob", __package__)
    if begins:
        begins(tasks)
    out = _done(tasks, results(tasks, jobs, end, going), came)
    if not out.is_flawed and out.failures and not tame:

        def run(more: list[Task]) -> Iterator[Result]:
            if begins and more:
                begins(more)
            for result in results(more, jobs, end, going):
                if came:
                    came(result)
                yield result

        shared = shared_tasks(loaded, seconds, small)
        looked = look_for_goals(shared, drafts, out.failures, out.done, run)
        out.flaw, out.left_out = looked.flaw, looked.left_out
        if looked.is_done:
            out.failures = []
        elif looked.failure is not None:
            out.failures.insert(0, looked.failure)
    if not out.is_flawed and out.failures:
        # (a search that failed at once isn't made a long one)
        out.flaw = _larger(loaded, min(spare, (time.time() - start) / 2))
    if not out.is_flawed and not out.failures:
        out.bundle = _assembled(loaded, out)
    out.seconds = time.time() - start
    return out


def _larger(loaded: Loaded, seconds: float) -> Flaw | None:
    """A flaw of many agents, at an input that meets what is assumed."""
    return larger_flaw(system_of(loaded.net), loaded.whole_tree(), clock() + seconds, loaded.meets)


def _done(tasks: list[Task], coming: Iterator[Result], came: Callable[[Result], None] | None) -> Outcome:
    """What comes of the tasks, up to a flaw of the net, or to a failure once small crowds were tried."""
    out = Outcome()
    small_crowds = {task.at for task in tasks if task.kind == FLAW}
    for result in coming:
        if came:
            came(result)
        out.done[result.kind, result.at] = result
        out.flaw, out.left_out = result.flaw, result.left_out
        if out.is_flawed:
            break
        if result.why:
            out.failures.append(result)
        if out.failures and all((FLAW, i) in out.done for i in small_crowds):
            break
    out.failures.sort(key=lambda result: ORDER.index(result.why) if result.why in ORDER else len(ORDER))
    return out


def _assembled(loaded: Loaded, out: Outcome) -> Bundle:
    assert loaded.parts is not None and loaded.predicate is not None
    parts = tuple(_part(text, i, out) for i, text in enumerate(loaded.parts))
    return Bundle(loaded.net, loaded.predicate, parts)


def _part(text: str, at: int, out: Outcome) -> Part:
    """What was found of a leaf, with goals or without."""
    goals = [out.done[kind, at].goal for kind in (GOAL_TRUE, GOAL_FALSE) if (kind, at) in out.done]
    if goals and goals[0] is not None and goals[1] is not None:
        return LeafGoals(text, goals[0], goals[1])
    layers, true, false = (out.done[kind, at] for kind in (LAYERS, TRUE, FALSE))
    return LeafProof(text, tuple(layers.layers), true.tree, false.tree)
