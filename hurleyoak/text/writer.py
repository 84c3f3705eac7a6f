"""Writes nets and bundles as `.pop` files, which `popfile` and its neighbours read back to the same."""
from __future__ import annotations

import re
from typing import Iterator, Sequence

from ..compiler.groups import leaf_told
from ..proof.branches import Visit, visits
from ..proof.names import Names, named, sum_of
from ..protocol.laws import PLAIN, chance_text
from ..protocol.nets import Item, Leaf, Net, compact
from ..protocol.predicatereader import read_predicate
from ..protocol.predicates import Predicate
from ..proof.bundles import Bundle, Goal, Layer, LeafGoals, Linear, Part, Residue, node_value
from ..protocol.naming import state_text
from .loaded import Loaded

WIDTH = 118
STEP = 2
HEAD = 10
TEXT_ENDING = ".pop"


def head(word: str, text: str) -> str:
    """A line that begins with a keyword."""
    return f"{word.ljust(HEAD)}{text}".rstrip()


def leaf_names(net: Net) -> list[str]:
    """Names for the leaves of a net, which has none."""
    return [f"leaf{i}" for i in range(len(net.leaves))]


def combine_text(combine: Sequence[Item], names: Sequence[str]) -> str:
    """The combination with `!`, `&&` and `||`; it is read back to the same list."""
    stack: list[tuple[str, int]] = []
    for item in combine:
        if isinstance(item, int):
            stack.append((names[item], 3))
        elif item == "not":
            text, strength = stack.pop()
            bare = strength == 3 and (" " not in text or _is_one(text))
            stack.append((f"!{text}" if bare else f"!({text})", 3))
        else:
            right, left = stack.pop(), stack.pop()
            own = 2 if item == "and" else 1
            first = left[0] if left[1] >= own else f"({left[0]})"
            second = right[0] if right[1] > own else f"({right[0]})"
            stack.append((f"{first} {'&&' if item == 'and' else '||'} {second}", own))
    return stack[0][0]


def derived_text(net: Net, texts: Sequence[str]) -> str:
    """The text of the whole predicate that the combination makes of the leaves' texts."""
    if len(net.combine) == 1 and isinstance(net.combine[0], int):
        return texts[net.combine[0]]
    return combine_text(
        net.combine, [text if not re.search(r"[!&|]", text) or _is_one(text) else f"({text})" for text in texts]
    )


def _is_one(text: str) -> bool:
    """Whether a text is in one pair of parentheses."""
    if not text.startswith("("):
        return False
    depth = 0
    for at, c in enumerate(text):
        depth += (c == "(") - (c == ")")
        if depth == 0:
            return at == len(text) - 1
    return False


def _mention_order(leaf: Leaf) -> list[int]:
    """The states in the order in which the written lines mention them."""
    seen: dict[int, None] = {}
    for q in [
        *leaf.inputs,
        *leaf.helpers,
        *(y for move in leaf.moves for y in move),
        *(q for q, b in enumerate(leaf.outputs) if b),
    ]:
        seen.setdefault(q)
    return list(seen)


def _helpers(leaf: Leaf, names: Names) -> str:
    out: list[str] = []
    at = 0
    while at < len(leaf.helpers):
        state = leaf.helpers[at]
        count = 1
        while at + count < len(leaf.helpers) and leaf.helpers[at + count] == state:
            count += 1
        out.append(names.state(state) if count == 1 else f"{count}*{names.state(state)}")
        at += count
    return "  ".join(out)


def wrapped(word: str, parts: Sequence[str], joint: str = " ") -> list[str]:
    """A line of parts behind a keyword, or as many such lines as they need."""
    lines: list[str] = []
    now = ""
    for part in parts:
        longer = f"{now}{joint}{part}" if now else part
        if now and HEAD + len(longer) > WIDTH:
            lines.append(head(word, now))
            longer = part
        now = longer
    return [*lines, head(word, now)]


def leaf_lines(net: Net, leaf: Leaf) -> list[str]:
    """The lines of a leaf without its proof."""
    names = Names(net.names, leaf)
    lines = []
    # (a helper's state that looks like a number is read as one, unless it is listed)
    if _mention_order(leaf) != list(range(len(leaf.states))) or any(leaf.states[q][0].isdigit() for q in leaf.helpers):
        lines += wrapped("states", [state_text(s) for s in leaf.states])
    lines.append(head("inputs", "   ".join(f"{v}: {names.state(q)}" for v, q in zip(net.names, leaf.inputs))))
    if leaf.helpers:
        lines.append(head("helpers", _helpers(leaf, names)))
    for move, law in zip(leaf.moves, leaf.laws or [PLAIN] * len(leaf.moves)):
        p, q, r, s = map(names.state, move)
        sign = " ," if law.ordered else " +"
        chance = "" if law.chance is None else f" @ {chance_text(law.chance)}"
        lines.append(f"{p}{sign} {q} -> {r}{sign} {s}{chance}")
    return lines + wrapped("yes", [names.state(q) for q, b in enumerate(leaf.outputs) if b])


def ending_lines(visit: Visit, lead: str, room: int) -> list[str]:
    """A `lin` or `residue` behind its lead; a long sum goes on in lines that begin with a sign."""
    node = visit.node
    assert isinstance(node, (Linear, Residue))
    terms = [(named(f, visit.branch.names), k) for f, k in node.terms]
    word = "lin" if isinstance(node, Linear) else f"residue {node.modulus}:"
    text = f"{lead}{word} {sum_of(terms)}"
    if len(text) <= room or len(terms) < 2:
        return [text]
    pieces = [sum_of([term]) for term in terms]
    lines = [f"{lead}{word} {pieces[0]}"]
    for piece in pieces[1:]:
        signed = f"- {piece[1:]}" if piece.startswith("-") else f"+ {piece}"
        if len(lines[-1]) + 1 + len(signed) > room:
            lines.append(signed)
        else:
            lines[-1] += f" {signed}"
    return lines


def node_lines(visit: Visit, names: Names, room: int) -> list[str]:
    """The lines of one node; those behind the first stand one step deeper."""
    lead = f"{visit.label}: " if visit.label else ""
    if visit.node is None:
        return ["missing"]
    if visit.why == "rest":
        return [f"rest {compact(node_value(visit.node))}"]
    if isinstance(visit.node, (Linear, Residue)):
        return ending_lines(visit, lead, room)
    return [lead + names.node(visit.node, visit.branch.names)]


def tree_lines(names: Names, tree: Predicate, value: bool, part: Part) -> Iterator[str]:
    """The lines of a tree."""
    nodes = part.tree(value)
    for visit in visits(names, tree, value, nodes):
        level = visit.level
        text = node_lines(visit, names, WIDTH - STEP * (level + 1))
        if visit.label and visit.flat and visit.node is not None:
            yield " " * STEP * (level + 1) + f"{visit.label}:"
            level += 1
            text = [text[0].removeprefix(f"{visit.label}: ")]
        yield " " * STEP * (level + 1) + text[0]
        for more in text[1:]:
            yield " " * STEP * (level + 3) + more
        if visit.why == "rest":
            for node in nodes[visit.number + 1 :]:
                yield " " * STEP + f"rest {compact(node_value(node))}"


def layer_lines(names: Names, layers: Sequence[Layer], at: int) -> list[str]:
    """The lines of a layer: its weights other than 0, and its moves."""
    leaf, layer = names.leaf, layers[at]
    taken = [t for other in layers for t in other.moves]
    if len(layer.weights) != len(leaf.states) or any(t >= len(leaf.moves) for t in layer.moves):
        return [head("layer", compact({"moves": list(layer.moves), "weights": list(layer.weights)}))]
    weights = [f"{names.state(q)}: {w}" for q, w in enumerate(layer.weights) if w]
    lines = wrapped("layer", weights, "  ")
    lines = [lines[0], *(" " * HEAD + ", " + line[HEAD:] for line in lines[1:])]
    others = set(taken) - set(layer.moves)
    if len(leaf.moves) > 1 and len(layers) == 1 and list(layer.moves) == [t for t in leaf.active if t not in others]:
        return [*lines, " " * STEP + "*"]
    return [*lines, *(" " * STEP + names.move(t) for t in layer.moves)]


def all_layer_lines(names: Names, layers: Sequence[Layer]) -> list[str]:
    """The lines of all layers."""
    if not layers:
        return [head("layers", "none")]
    return [line for at in range(len(layers)) for line in layer_lines(names, layers, at)]


def keeps_lines(names: Names, states: Sequence[int]) -> list[str]:
    """The lines of a set that stays; those behind the first begin with a comma."""
    lines = wrapped("keeps", [f"{{{', '.join(map(names.state, states))}}}"])
    if HEAD + STEP + len(lines[0]) <= WIDTH:
        return lines
    lines = wrapped("keeps", [f"{names.state(q)}" for q in states], ", ")
    lines = [lines[0], *("  , " + line[HEAD:] for line in lines[1:])]
    return [f"{lines[0][:HEAD]}{{{lines[0][HEAD:]}", *lines[1:-1], f"{lines[-1]}}}"]


def goal_lines(names: Names, goal: Goal) -> list[str]:
    """The lines of a goal before its nodes."""
    lines = all_layer_lines(names, goal.layers)
    return lines + [line for states in goal.sets for line in keeps_lines(names, states)]


def proof_lines(net: Net, leaf: Leaf, part: Part) -> list[str]:
    """The lines of a leaf's proof."""
    tree = read_predicate(part.pred, net.names)
    lines = [] if isinstance(part, LeafGoals) else ["", *all_layer_lines(Names(net.names, leaf), part.layers)]
    for value in (True, False):
        goal = part.goal(value)
        names = Names(net.names, leaf, goal)
        lines += ["", f"when {str(value).lower()}"]
        lines += [" " * STEP + line for line in (goal_lines(names, goal) if goal else [])]
        lines += tree_lines(names, tree, value, part)
    return lines


def loaded_text(loaded: Loaded, bundle: Bundle | None) -> str:
    """The `.pop` file of an input's net, or of a bundle of it, with the leaves' names and with what is assumed."""
    return text_of(loaded.net, bundle, loaded.labels, loaded.assumed)


def with_worths(net: Net, text: str) -> str:
    """The text below lines that say what the states of a compiled net are worth."""
    told = [line for leaf in net.leaves for line in leaf_told(leaf)]
    return "".join(f"# {line}\n" for line in dict.fromkeys(told)) + text


def is_text_file(path: str) -> bool:
    """Whether a file's name asks for the text."""
    return path.endswith(TEXT_ENDING)


def text_of(net: Net, bundle: Bundle | None = None, labels: Sequence[str] = (), assumed: Sequence[str] = ()) -> str:
    """The `.pop` file of a net, or of a bundle with its predicate and proof; `labels` are names for the leaves."""
    lines: list[str] = []
    labels = [state_text(label) for label in labels] or leaf_names(net)
    alone = net.combine == (0,) and len(net.leaves) == 1
    if net.format == 2 and not any(leaf.helpers for leaf in net.leaves):
        lines.append(head("format", "2"))
    if bundle and bundle.pred != derived_text(net, [part.pred for part in bundle.proof]):
        lines.append(head("predicate", bundle.pred))
    lines += [head("assume", text) for text in assumed]
    if not alone:
        lines += [head("combine", combine_text(net.combine, labels)), ""]
    for i, leaf in enumerate(net.leaves):
        if not alone:
            lines += ([""] if i else []) + [head("leaf", labels[i])]
        lines += leaf_lines(net, leaf)
        if bundle:
            lines += [head("computes", bundle.proof[i].pred), *proof_lines(net, leaf, bundle.proof[i])]
    return "\n".join(lines) + "\n"
