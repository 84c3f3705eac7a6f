"""Goals in the place of layers: for the leaves of a net that has no layers, or never comes to rest."""
from __future__ import annotations

from typing import Callable, Iterator, NamedTuple, Sequence

from ..proof.bundles import First
from ..text.proofreader import ProofDraft
from .flaws import Flaw
from .jobs import FALSE, GOAL_FALSE, GOAL_TRUE, LAYERS, TRUE, WHOLE, Result, Task, TaskKind, Why

Done = dict[tuple[TaskKind, int], Result]
Run = Callable[[list[Task]], Iterator[Result]]
KINDS = (LAYERS, TRUE, FALSE)
# with these no goal helps either: a tree for a goal has no fact that one for all moves lacks
HOPELESS = (Why.MISSES, Why.WRONG_END, Why.GAVE_UP, Why.NO_GOAL)


def plain_tasks(task: Task, draft: ProofDraft) -> Iterator[Task]:
    """The layers and the trees of a leaf that falls silent; `task` has the leaf and all else."""
    yield task.like(LAYERS, layers=draft.layers)
    for kind in (TRUE, FALSE):
        yield task.like(kind, nodes=draft.tree(kind == TRUE))


def goal_tasks(task: Task, draft: ProofDraft, done: Done | None = None) -> Iterator[Task]:
    """The goals of a leaf. A tree for a goal needs `first` where the one for all moves does."""
    for kind, whole in ((GOAL_TRUE, TRUE), (GOAL_FALSE, FALSE)):
        value = kind == GOAL_TRUE
        goal = draft.goal(value)
        known = (done or {}).get((whole, task.at))
        depth = int(known is not None and any(isinstance(node, First) for node in known.tree))
        yield task.like(kind, goal=goal, nodes=draft.tree(value) if goal else None, depth=depth)


def leaf_tasks(task: Task, draft: ProofDraft) -> Iterator[Task]:
    """The tasks of a leaf, by what is written of its proof."""
    return plain_tasks(task, draft) if draft.goals is None else goal_tasks(task, draft)


def _is_hopeless(result: Result) -> bool:
    return result.why in HOPELESS or result.why == Why.RESTLESS and result.kind in (TRUE, FALSE)


class Looked(NamedTuple):
    """What came of it: whether all leaves have a proof now; or a flaw; or why a written goal has no tree. `left_out` is
    a flaw at an input that the file leaves out."""

    is_done: bool = False
    flaw: Flaw | None = None
    left_out: Flaw | None = None
    failure: Result | None = None


def look_for_goals(
    tasks: Sequence[Task], drafts: Sequence[ProofDraft], failures: Sequence[Result], done: Done, run: Run
) -> Looked:
    """Puts goals into `done` for each leaf that has no layers. `tasks` has one task for each leaf, with what all
    share. What is written of a proof is kept."""
    restless = {result.at for result in failures if result.at != WHOLE} or ({0} if len(tasks) == 1 else set())
    if any(map(_is_hopeless, failures)):
        return Looked()
    others = [task for task in tasks if task.at not in restless]
    for result in run([one for task in others for one in leaf_tasks(task, drafts[task.at]) if _is_due(one, done)]):
        done[result.kind, result.at] = result
        if result.flaw is not None or result.left_out is not None:
            return Looked(flaw=result.flaw, left_out=result.left_out)
        if _is_hopeless(result):
            return Looked()
    restless |= {at for kind, at in done if kind in KINDS and done[kind, at].why}
    if any(drafts[at].is_given and drafts[at].goals is None for at in restless):
        return Looked()  # (what is written of layers is kept)
    left = [one for task in tasks if task.at in restless for one in goal_tasks(task, drafts[task.at], done)]
    for result in run([one for one in left if _is_due(one, done)]):
        done[result.kind, result.at] = result
        if result.why:
            return Looked(failure=result if drafts[result.at].goals is not None else None)
    return Looked(is_done=True)


def _is_due(task: Task, done: Done) -> bool:
    return (task.kind, task.at) not in done
