"""A proof mended: `?` in the place of what the program refuses, or of more of it, until it is certified or nothing
more can be opened."""
from __future__ import annotations

import re
from dataclasses import replace
from typing import Callable, Iterator, Sequence

from ..engine import program
from ..proof.branches import visits
from ..text.loaded import Loaded, LoadedNet, Written
from ..proof.names import Names
from ..protocol.predicatereader import read_predicate
from ..text.proofreader import GoalDraft, LayerDraft, ProofDraft
from ..proof.bundles import Bundle, Hole, Layer, LeafGoals, LeafProof
from ..text.treereader import DraftNode

ROUNDS = 12  # places that are opened one after the other
_REFUSED = re.compile(r"rejected leaf (\d+) (layers|true|false)(?: (\d+|layers|set))?.*")


def _drafts(layers: Sequence[Layer]) -> list[LayerDraft]:
    return [LayerDraft(layer.moves, layer.weights) for layer in layers]


def drafts_of_bundle(bundle: Bundle) -> list[ProofDraft]:
    """The proofs of a bundle, with nothing open."""
    out = []
    for part in bundle.proof:
        draft = ProofDraft(None, list(part.tree(True)), list(part.tree(False)), is_given=True)
        if isinstance(part, LeafProof):
            draft.layers = _drafts(part.layers)
        else:
            goals = {value: part.goal(value) for value in (True, False)}
            draft.goals = {value: GoalDraft(_drafts(goal.layers), goal.sets) for value, goal in goals.items()}
        out.append(draft)
    return out


def _ends(bundle: Bundle, at: int, value: bool) -> list[int]:
    """For each node of a tree the number behind its last descendant."""
    part = bundle.proof[at]
    names = Names(bundle.net.names, bundle.net.leaves[at], part.goal(value))
    nodes = part.tree(value)
    many = [0] * len(nodes)
    for visit in visits(names, read_predicate(part.pred, bundle.net.names), value, nodes):
        if visit.node is not None and visit.number < len(nodes) and visit.why != "rest":
            many[visit.number] = len(visit.branch.cases(visit.node))
    ends = [0] * len(nodes)
    for n in reversed(range(len(nodes))):
        end = n + 1
        for _ in range(many[n]):
            end = ends[end] if end < len(nodes) else end
        ends[n] = end
    return ends


def openings(bundle: Bundle, line: str) -> Iterator[list[ProofDraft]]:
    """The proofs with `?` where this line refuses the bundle: in the place of the node, of its parents, of the whole
    tree; or of layers."""
    found = _REFUSED.fullmatch(line)
    if found is None:
        return
    at, word = int(found[1]), found[2]
    part = bundle.proof[at]
    if isinstance(part, LeafProof) and word == "layers":
        for layers in ([LayerDraft(layer.moves, None) for layer in part.layers], None):
            drafts = drafts_of_bundle(bundle)
            drafts[at].layers = layers
            yield drafts
        return
    value = word == "true"
    if found[3] in ("layers", "set"):
        yield _without_goal(bundle, at, value)
        return
    nodes: list[DraftNode] = list(part.tree(value))
    number = min(int(found[3] or 0), len(nodes))
    ends = _ends(bundle, at, value)
    parents = [n for n in reversed(range(number)) if ends[n] > number]
    places = [number, *parents] if number < len(nodes) else parents
    for place in places:
        yield _with_tree(bundle, at, value, [*nodes[:place], Hole(), *nodes[ends[place] :]])
    yield _with_tree(bundle, at, value, None)
    if isinstance(part, LeafGoals):
        yield _without_goal(bundle, at, value)


def _without_goal(bundle: Bundle, at: int, value: bool) -> list[ProofDraft]:
    """The proofs of a bundle, with the goal for a value open."""
    drafts = drafts_of_bundle(bundle)
    drafts[at].put(value, None)
    drafts[at].goals = {other: goal for other, goal in (drafts[at].goals or {}).items() if other != value}
    return drafts


def _with_tree(bundle: Bundle, at: int, value: bool, nodes: list[DraftNode] | None) -> list[ProofDraft]:
    drafts = drafts_of_bundle(bundle)
    drafts[at].put(value, nodes)
    return drafts


def _open(loaded: Loaded, bundle: Bundle, drafts: list[ProofDraft]) -> LoadedNet:
    """The net with the bundle's predicates, and with these drafts in the place of its proof."""
    before = loaded.written or Written([], [], [])
    parts = [part.pred for part in bundle.proof]
    return LoadedNet(loaded.name, loaded.net, bundle.pred, parts, replace(before, drafts=drafts), loaded.warnings)


def mended(
    loaded: Loaded, bundle: Bundle, answer: program.Answer, find: Callable[[Loaded], Bundle | None]
) -> tuple[Bundle, program.Answer]:
    """The bundle with what was refused found anew, place by place, and what the program says of it."""
    for _ in range(ROUNDS):
        for drafts in openings(bundle, answer.first_line):
            found = find(_open(loaded, bundle, drafts))
            if found is not None and found != bundle:
                again = program.check(found.line())
                if again.first_line != answer.first_line:
                    bundle, answer = found, again
                    break
        else:
            return bundle, answer
        if answer.status != program.REJECTED:
            return bundle, answer
    return bundle, answer
