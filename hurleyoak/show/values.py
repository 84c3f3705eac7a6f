"""An explanation as a value for the page, which `static/proof.js` shows; the page of `explain --html` shows the
same."""
from __future__ import annotations

from typing import Any, Sequence

from .explaining import Explanation, ToldFact, ToldLayer, ToldLeaf, ToldNode
from .goals import ToldGoal
from ..engine.program import Answer
from ..proof.bundles import Linear, Residue
from ..text.writer import combine_text


def _fact(fact: ToldFact) -> list[Any]:
    return [fact.number, fact.name, fact.says, fact.means]


def _words(node: ToldNode) -> str:
    """A node without its label."""
    text = " ".join(part.strip() for part in node.text)
    return text.removeprefix(f"{node.visit.label}: ") if node.visit.label else text


def _head(node: ToldNode) -> str:
    """What stands before the sum of a node that closes; empty for others."""
    if not isinstance(node.visit.node, (Linear, Residue)) or node.refused == "bad-index":
        return ""
    return "lin" if isinstance(node.visit.node, Linear) else f"residue {node.visit.node.modulus}:"


def _node(node: ToldNode, line: int) -> dict[str, Any]:
    out: dict[str, Any] = {
        "n": node.number,
        "owner": node.visit.owner,
        "words": _words(node),
        "facts": [_fact(f) for f in node.facts],
    }
    optional = {
        "label": node.visit.label,
        "head": _head(node),
        "terms": [[k, _fact(f)] for k, f in node.terms],
        "sum": node.sum,
        "closes": node.closes,
        "about": node.about,
        "refused": node.refused,
        "lacks": [*node.notes, *node.lacks],
        "open": node.is_open,
        "line": line,
    }
    return {**out, **{name: value for name, value in optional.items() if value}}


def _layer(layer: ToldLayer) -> dict[str, Any]:
    moves = [[m.number, m.name, list(m.before), list(m.after), m.lowers, m.silent] for m in layer.moves]
    return {
        "shaped": layer.is_shaped,
        "weights": [list(w) for w in layer.weights],
        "moves": moves,
        "bound": layer.bound,
    }


def _goal(told: ToldGoal) -> dict[str, Any]:
    """A goal but for its tree."""
    return {
        "layers": [_layer(layer) for layer in told.layers],
        "told": told.lines(),
        "fault": told.fault,
        "lacks": told.lacks,
    }


def _leaf(told: ToldLeaf, label: str, names: Sequence[str], trees: dict[str, Any]) -> dict[str, Any]:
    leaf = told.leaf
    return {
        "label": label,
        "computes": told.part.pred,
        "states": [[told.names.state(q), b] for q, b in enumerate(leaf.outputs)],
        "moves": [told.names.move(t) for t in range(len(leaf.moves))],
        "starts": [[v, told.names.state(q)] for v, q in zip(names, leaf.inputs)],
        "helpers": [told.names.state(q) for q in leaf.helpers],
        "layers": [_layer(layer) for layer in told.layers],
        "layerFault": told.layer_fault,
        "layerLacks": [*told.notes, *told.layer_lacks],
        "goals": {str(value).lower(): _goal(goal) for value, goal in told.goals.items()},
        **trees,
    }


def _tree(explanation: Explanation, at: int, value: bool) -> list[dict[str, Any]]:
    lines = explanation.drafts[at].lines(value) if explanation.drafts else []
    return [
        _node(node, lines[node.number] if 0 <= node.number < len(lines) else 0) for node in explanation.tree(at, value)
    ]


def explanation_value(explanation: Explanation) -> dict[str, Any]:
    """All that is told."""
    net = explanation.bundle.net
    leaves = [
        _leaf(told, label, net.names, {"true": _tree(explanation, i, True), "false": _tree(explanation, i, False)})
        for i, (told, label) in enumerate(zip(explanation.leaves, explanation.labels))
    ]
    return {
        "line": explanation.line,
        "good": bool(explanation.claim),
        "predicate": explanation.bundle.pred,
        "combine": combine_text(net.combine, explanation.labels) if len(net.leaves) > 1 else "",
        "soon": explanation.soon,
        "notes": [*explanation.differs, *explanation.predicate],
        "warnings": explanation.warnings,
        "leaves": leaves,
    }


def answer_value(answer: Answer) -> dict[str, Any]:
    """What the program said of a bundle."""
    claim = answer.claim
    return {
        "line": answer.first_line,
        "status": answer.status,
        "good": bool(claim),
        "claim": str(claim.kind),
        "bound": claim.bound,
        "tame": claim.is_tame,
    }
