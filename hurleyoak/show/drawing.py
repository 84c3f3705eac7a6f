"""Draws an explanation as text. It is a `.pop` file whose comments explain it, and is read back to the same bundle."""
from __future__ import annotations

from typing import Iterator, Sequence

from .explaining import Explanation, ToldFact, ToldLayer, ToldNode
from .goals import ToldGoal
from ..protocol.nets import compact
from ..proof.bundles import Layer, node_value
from ..proof.names import Names
from ..text.writer import STEP, combine_text, derived_text, head, keeps_lines, layer_lines, leaf_lines

FACTS_SHOWN = 24
MARK = ">>>"
COLUMN = 62


def beside(text: str, comment: str) -> str:
    """A line with a comment behind it."""
    return f"{text.ljust(COLUMN)}  # {comment}" if comment else text


def fact_lines(facts: Sequence[ToldFact], everything: bool) -> list[str]:
    """The facts of a case, one a line; of many alike the first ones."""
    kept = list(facts)
    left: list[ToldFact] = []
    if not everything and len(kept) > FACTS_SHOWN:
        rest = [fact for fact in kept if fact.name.startswith("never[")][FACTS_SHOWN // 2 :]
        names = {fact.number for fact in rest}
        kept, left = [fact for fact in kept if fact.number not in names], rest
    width = max((len(fact.name) for fact in kept), default=0)
    wide = max((len(fact.says) for fact in kept), default=0)
    lines = [
        f"# #{fact.number} {fact.name.ljust(min(width, 24))}  {fact.says.ljust(min(wide, 40))}  {fact.means}".rstrip()
        for fact in kept
    ]
    if left:
        lines.append(
            f"# #{left[0].number} to #{left[-1].number}: {len(left)} more moves that were not taken (--all shows them)"
        )
    return lines


class _Guides:
    """The lines that join the cases of a node."""

    def __init__(self) -> None:
        self.open: list[bool] = []

    def below(self, level: int) -> str:
        """What stands before a line that belongs to a case of this level."""
        return " " * STEP + "".join("│  " if self.open[i] else "   " for i in range(level))

    def case(self, level: int, is_last: bool) -> str:
        """What stands before a line that begins a case of this level."""
        del self.open[level - 1 :]
        lead = self.below(level - 1) + ("└─ " if is_last else "├─ ")
        self.open.append(not is_last)
        return lead


def _said(node: ToldNode, is_first: bool) -> list[str]:
    lines = []
    if node.refused:
        lines.append(f"# {MARK} {'refused' if is_first else 'also'}: {node.refused}")
    lines += [f"# {MARK} {told}" for told in node.notes]
    lines += [f"# {MARK} {told}" for told in node.lacks]
    if node.is_open:
        lines.append("# this part is to be found: `pop find`")
    elif node.closes:
        lines.append(f"# sum: {node.sum}")
    return lines + [f"# {told}" for told in node.about]


def tree_lines(nodes: Sequence[ToldNode], everything: bool) -> Iterator[str]:
    """The lines of a tree: each node behind the facts that its case adds."""
    guides = _Guides()
    refused = False
    for node in nodes:
        visit = node.visit
        level = visit.level
        text = list(node.text)
        mark = f"node {node.number}"
        if visit.label:
            lead = guides.case(level, visit.is_last)
            if visit.flat and visit.node is not None:
                yield f"{lead}{visit.label}:"
                text = [text[0].removeprefix(f"{visit.label}: ")]
                level += 1
                guides.open.append(False)
                lead = guides.below(level)
        else:
            lead = guides.below(level)
        inner = (
            guides.below(level)
            if visit.flat
            else guides.below(level) + ("│  " if visit.node is not None and _has_cases(node) else "   ")
        )
        facts = [inner + line for line in fact_lines(node.facts, everything)]
        if not visit.label:
            yield from ([guides.below(level) + line for line in fact_lines(node.facts, everything)])
            facts = []
        yield beside(lead + text[0], mark if visit.node is not None else "")
        yield from (inner + "   " + more for more in text[1:])
        yield from facts
        yield from (inner + line for line in _said(node, not refused))
        refused = refused or bool(node.refused)


def _has_cases(node: ToldNode) -> bool:
    return not node.closes and not node.refused and not node.is_open


def layer_table(names: Names, layers: Sequence[Layer], told: Sequence[ToldLayer], at: int) -> list[str]:
    """A layer's lines, each move with the weights before and after it."""
    layer = told[at]
    lines = layer_lines(names, layers, at)
    if not layer.is_shaped:
        return lines
    lines[0] = beside(
        lines[0], f"layer {at}: at most {layer.bound} step{'' if layer.bound == 1 else 's'} for each agent"
    )
    if lines[-1].strip() == "*":
        lines[-1:] = [" " * STEP + move.name for move in layer.moves]
    first = len(lines) - len(layer.moves)
    for i, move in enumerate(layer.moves):
        told_weights = f"{move.before[0]} + {move.before[1]} -> {move.after[0]} + {move.after[1]}"
        lowers = (
            "silent, passed over"
            if move.silent
            else f"lowers by {move.lowers}"
            if move.lowers > 0
            else f"{MARK} does not lower"
        )
        lines[first + i] = beside(lines[first + i], f"{told_weights}: {lowers}")
    return lines


def layer_tables(names: Names, layers: Sequence[Layer], told: Sequence[ToldLayer]) -> Iterator[str]:
    """The lines of all layers."""
    if not layers:
        yield head("layers", "none")
    for at in range(len(layers)):
        yield from layer_table(names, layers, told, at)


def refusals(notes: Sequence[str], fault: str, lacks: Sequence[str]) -> Iterator[str]:
    """What is refused, in comments."""
    for line in [*notes, *([f"refused: {fault}"] if fault else []), *lacks]:
        yield f"# {MARK} {line}"


def goal_block(told: ToldGoal, notes: Sequence[str]) -> Iterator[str]:
    """The lines of a goal before its nodes, with what is reached, why it stays and what goes on."""
    yield from layer_tables(told.names, told.goal.layers, told.layers)
    for states in told.goal.sets:
        yield from keeps_lines(told.names, states)
    yield from refusals(notes, told.fault, told.lacks)
    yield from (f"# {line}" for line in told.lines())


def leaf_block(explanation: Explanation, at: int, everything: bool) -> Iterator[str]:
    """The lines of a leaf, its layers and its trees."""
    told = explanation.leaves[at]
    yield from leaf_lines(explanation.bundle.net, told.leaf)
    yield head("computes", told.part.pred)
    if told.plain_layers is not None:
        yield ""
        yield from layer_tables(told.names, told.plain_layers, told.layers)
        yield from refusals([*told.notes], told.layer_fault, told.layer_lacks)
    if told.layers and not told.layer_fault:
        yield f"# bound: {sum(layer.bound for layer in told.layers)} steps for each agent"
    for value in (True, False):
        yield ""
        yield f"when {str(value).lower()}"
        if value in told.goals:
            yield from (" " * STEP + line for line in goal_block(told.goals[value], told.notes))
        nodes = explanation.tree(at, value)
        yield from tree_lines(nodes, everything)
        if nodes and nodes[-1].refused == "rest":
            for node in told.part.tree(value)[nodes[-1].number + 1 :]:
                yield " " * STEP + f"rest {compact(node_value(node))}"


def drawn(explanation: Explanation, everything: bool = False) -> str:
    """The whole text."""
    bundle = explanation.bundle
    net = bundle.net
    labels = explanation.labels
    lines = [f"# {explanation.line}"]
    lines += [f"# {told}" for told in explanation.soon]
    lines += [f"# warning: {told}" for told in explanation.warnings]
    lines += [f"# {MARK} {told}" for told in [*explanation.differs, *explanation.predicate]]
    lines.append("")
    alone = net.combine == (0,) and len(net.leaves) == 1
    if net.format == 2 and not any(leaf.helpers for leaf in net.leaves):
        lines.append(head("format", "2"))
    if bundle.pred != derived_text(net, [part.pred for part in bundle.proof]):
        lines.append(head("predicate", bundle.pred))
    if not alone:
        lines += [head("combine", combine_text(net.combine, labels)), ""]
    for i in range(len(net.leaves)):
        if not alone:
            lines += ([""] if i else []) + [head("leaf", labels[i])]
        lines += leaf_block(explanation, i, everything)
    return "\n".join(lines) + "\n"
