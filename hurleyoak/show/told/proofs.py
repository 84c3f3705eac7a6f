"""Sentences on rejections: what is missing at the place that the program names, and where to read more."""
from __future__ import annotations

import re

from ..explaining import Explanation, explain
from ...faults import InputFault
from ...text.files import load
from ...text.loaded import LoadedBundle
from ...engine.inputs import Asked
from ...text.scanner import TextFault

GENERAL = {
    "shape": "layer {at} has not one weight for each state, or lists a move that isn't there or stood before",
    "no-layer": "move {at} changes something, and is in no layer",
    "not-lower": "move {at} doesn't lower the weights of its layer",
    "wakes": "move {at} makes a move of an earlier layer possible again",
    "missing": "the nodes end, and a case has none",
    "too-deep": "node {at} has over 4,095 nodes above it",
    "bad-index": "node {at} names a fact, state or variable that isn't there",
    "no-twin": "node {at} is `twin` for a state that doesn't react with itself",
    "not-open": "node {at} opens a fact that doesn't say what value a predicate has",
    "not-closed": "the sum of node {at} doesn't close its branch",
    "too-many-facts": "a case of node {at} would have over 65,536 facts",
    "rest": "node {at} is one too many: all cases are closed before it",
}
OF_SETS = {
    "output": "state {at} is in it, and has another output",
    "leaves": "move {at} leads out of it, and is in no layer",
    "wakes": "move {at} makes a move possible again that leads out of it",
}
PREDICATE = "the leaves' predicates don't combine to the bundle's"
_LAYERS = re.compile(r"rejected leaf (\d+)(?: (true|false))? layers ([a-z-]+) (\d+)(?: (\d+))?")
_SET = re.compile(r"rejected leaf (\d+) (true|false) set (\d+) (output|leaves|wakes) (\d+)(?: (\d+))?")
_TREE = re.compile(r"rejected leaf (\d+) (true|false) (\d+) ([a-z-]+)")
MOST = 3


def rejected_told(asked: Asked, line: str) -> list[str]:
    """What the proof lacks; what the workbench sees is told only where it comes to the program's own line."""
    layers, tree, one = _LAYERS.fullmatch(line), _TREE.fullmatch(line), _SET.fullmatch(line)
    where, general = "", PREDICATE
    if layers:
        of = f" of the goal for {layers[2]}" if layers[2] else ""
        where, general = f"leaf {layers[1]}, layers{of}: ", GENERAL[layers[3]].format(at=layers[4])
    elif one:
        where = f"leaf {one[1]}, set {one[3]} of the goal for {one[2]}: "
        general = OF_SETS[one[4]].format(at=one[5])
    elif tree:
        where, general = f"leaf {tree[1]}, tree for {tree[2]}: ", GENERAL[tree[4]].format(at=tree[3])
    lacks = _lacks(asked, line)
    file = asked.file if asked.file and not asked.is_stdin else "FILE"
    return [
        f"the proof isn't valid: {where}{general}",
        *lacks[:MOST],
        f"`pop explain {file}` shows the whole proof; `pop find {file}` looks for what is missing",
    ]


def _lacks(asked: Asked, line: str) -> list[str]:
    if not asked.lines:
        return []
    try:
        loaded = load(asked.lines[0], asked.file or "line 1")
    except (InputFault, TextFault):
        return []
    if not isinstance(loaded, LoadedBundle):
        return []
    told = explain(loaded, loaded.bundle, line)
    return [] if told.differs else _found(told, line)


def _found(told: Explanation, line: str) -> list[str]:
    tree = _TREE.fullmatch(line)
    if line == "rejected predicate":
        return told.predicate
    if not tree:
        return next((leaf.lacks for leaf in told.leaves if leaf.lacks), [])
    for node in told.tree(int(tree[1]), tree[2] == "true"):
        if node.refused:
            at = [f"node {node.number}: {node.text[0].strip()}"] if node.visit.node is not None else []
            return [*at, *node.lacks]
    return []
