"""Why the checker refuses, in sentences: what is missing in a sum, what a layer's move raises or wakes."""
from __future__ import annotations

from typing import Sequence

from ..proof.checking import LayerFault, agents_before, denied, total
from ..proof.facts import AT_LEAST, DIVIDES, EQUAL, HOLDS, NOT_DIVIDES, Fact, Space
from ..proof.names import Names, named
from ..protocol.nets import Leaf
from ..proof.bundles import First, Layer, Linear, Node, Open, Present, Residue, Split, Twin
from ..proof.ends import STILL

SHOWN = 6

GLOSSES = {
    "flow": "flow of the state",
    "agents": "two agents at least",
    "predicate": "it is used once it is opened",
    "wrong": "somebody is wrong",
    "outside": "an agent is outside of the set",
    "value": "what the predicate says of the input",
    "absent": "no agent is in the state",
    "here": "an agent is in the state",
    "one": "just one is",
    "single": "two of them would meet",
    "two": "two agents are in the state",
    "leaves": "a move left the set",
    "never": "the move was not taken",
    "none": "no agent started so",
    "empty": "no agent is in the set",
    "helped": "but helpers start in it",
    "some": "an agent is in the set",
    "enters": "a move entered the set",
    "starts": "an agent started in the set",
    "above": "the sum is above 0",
    "equal": "the sum is 0",
    "below": "the sum is below 0",
}


def gloss(name: str) -> str:
    """What a fact means, by its name."""
    head = name
    for sign in "([{./":
        head = head.split(sign)[0]
    return GLOSSES.get(head, "")


def few(texts: Sequence[str]) -> str:
    """The first texts, and how many more there are."""
    more = f" and {len(texts) - SHOWN} more" if len(texts) > SHOWN else ""
    return ", ".join(texts[:SHOWN]) + more


def sum_told(names: Names, facts: Sequence[Fact], node: Linear | Residue) -> str:
    """The sum of the named facts, written out."""
    coefficients, constant = total(facts, node.terms)
    return names.sum([(a, k) for a, k in sorted(coefficients.items()) if k], constant)


def closes_told(names: Names, facts: Sequence[Fact], node: Linear | Residue) -> str:
    """Why a node that closes does."""
    if isinstance(node, Linear):
        return "no coefficient is above 0 and the constant is below 0, so the sum is below 0; but it is at least 0"
    coefficients, constant = total(facts, node.terms)
    if constant % node.modulus and all(k % node.modulus == 0 for k in coefficients.values()):
        return f"{node.modulus} divides all coefficients and not the constant, so not the sum; but it divides the sum"
    fact = denied(facts, node.modulus, coefficients, constant)
    assert fact is not None
    return (
        f"{node.modulus} divides the sum, and it differs by multiples of {node.modulus} from what"
        f" {node.modulus} doesn't divide: {names.sum(fact.terms, fact.constant)}"
    )


def _linear_lacks(names: Names, facts: Sequence[Fact], fact_names: Sequence[str], node: Linear) -> list[str]:
    out = []
    for number, k in node.terms:
        kind = facts[number].kind
        if kind == HOLDS:
            out.append(f"`{fact_names[number]}` says what value a predicate has: `open` it, and use what that gives")
        elif kind in (DIVIDES, NOT_DIVIDES):
            out.append(f"`{fact_names[number]}` is about multiples: it is for `residue {facts[number].modulus}`")
        elif kind == AT_LEAST and k < 0:
            out.append(f"`{fact_names[number]}` says >= 0, so its multiplier may not be negative")
    coefficients, constant = total(facts, [(n, k) for n, k in node.terms if facts[n].kind in (AT_LEAST, EQUAL)])
    left = names.sum([(a, k) for a, k in sorted(coefficients.items()) if k], constant)
    positive = [f"`{names.variable(a)}`" for a, k in sorted(coefficients.items()) if k > 0]
    if positive:
        out.append(f"{few(positive)} {'is' if len(positive) == 1 else 'are'} still positive: {left}")
    if constant > -1:
        out.append(f"the constant is {constant}, and has to be -1 or less: {left}")
    return out


def _residue_lacks(names: Names, facts: Sequence[Fact], fact_names: Sequence[str], node: Residue) -> list[str]:
    m = node.modulus
    out = []
    for number, _ in node.terms:
        fact = facts[number]
        if fact.kind == DIVIDES and fact.modulus != m:
            out.append(f"`{fact_names[number]}` is about multiples of {fact.modulus}, not of {m}")
        elif fact.kind not in (EQUAL, DIVIDES):
            out.append(f"`{fact_names[number]}` is no `= 0` and no `{m} divides`")
    if out:
        return out
    coefficients, constant = total(facts, node.terms)
    left = names.sum([(a, k) for a, k in sorted(coefficients.items()) if k], constant)
    odd = [f"`{names.variable(a)}`" for a, k in sorted(coefficients.items()) if k % m]
    if odd:
        out.append(f"{m} doesn't divide the coefficient of {few(odd)}: {left}")
    else:
        out.append(f"{m} divides the constant too: {left}")
    if any(fact.kind == NOT_DIVIDES and fact.modulus == m for fact in facts):
        out.append(f"and it doesn't differ by multiples of {m} from a sum that {m} doesn't divide")
    return out


def _index_lacks(space: Space, facts: Sequence[Fact], node: Node) -> list[str]:
    if isinstance(node, (Linear, Residue, Open)):
        numbers = [node.fact] if isinstance(node, Open) else [n for n, _ in node.terms]
        bad = [str(n) for n in numbers if n >= len(facts)]
        return [f"there is no fact {few(bad)}: this branch has the facts 0 to {len(facts) - 1}"]
    if isinstance(node, Split):
        bad = [str(a) for a, _ in node.terms if a >= space.variables]
        return [f"there is no variable {few(bad)}: this leaf has the variables 0 to {space.variables - 1}"]
    states = [node.state] if isinstance(node, (Present, Twin)) else list(node.states)
    bad = [str(q) for q in states if q >= space.states]
    return [f"there is no state {few(bad)}: this leaf has the states 0 to {space.states - 1}"]


def node_lacks(
    names: Names, space: Space, facts: Sequence[Fact], fact_names: Sequence[str], node: Node | None, why: str
) -> list[str]:
    """What is missing at a node that is refused, in sentences."""
    if why == "missing" or node is None:
        return ["the nodes end here, and this case has none"]
    if why == "rest":
        return ["all cases were closed before this node: the tree has too many"]
    if why == "not-closed" and isinstance(node, Linear):
        return _linear_lacks(names, facts, fact_names, node)
    if why == "not-closed" and isinstance(node, Residue):
        return _residue_lacks(names, facts, fact_names, node)
    if why == "bad-index":
        return _index_lacks(space, facts, node)
    if why == "no-twin" and isinstance(node, Twin) and space.goal is STILL:
        return ["before a set is entered every move may be possible still, so two agents may be in any state"]
    if why == "no-twin" and isinstance(node, Twin):
        return [
            f"no move that changes something takes {names.state(node.state)} twice, so two agents may be in it at"
            " the end"
        ]
    if why == "not-open" and isinstance(node, Open):
        there = [fact_names[i] for i, fact in enumerate(facts) if fact.kind == HOLDS]
        return [f"`{named(node.fact, fact_names)}` doesn't say what value a predicate has; these do: {few(there)}"]
    if why == "too-deep":
        return ["a node has at most 4,095 nodes above it"]
    return ["a case would get more than 65,536 facts"]


def entries_told(names: Names, space: Space, node: First) -> list[str]:
    """What `first` has to show of the moves that enter its set, in sentences."""
    text = names.braces(node.states)
    moves = space.entering(node.states)
    if not moves:
        return [f"no move brings an agent into {text} from outside"]
    lines = [f"to show: nobody can come into {text} first, as each move into it needs agents that aren't there"]
    lines += [f"`{names.move(t)}` needs {_needed(names, t)}, with nobody in {text} before" for t in moves[:SHOWN]]
    lines += [f"and so on for {len(moves) - SHOWN} more moves"] if len(moves) > SHOWN else []
    return [*lines, "the cases of these moves speak of the crowd before, and count their facts anew"]


def _needed(names: Names, t: int) -> str:
    """The two agents that meet in a move."""
    p, q = map(names.state, names.leaf.moves[t][:2])
    return f"two agents in {p}" if p == q else f"an agent in {p} and one in {q}"


def layer_lacks(names: Names, leaf: Leaf, layers: Sequence[Layer], fault: LayerFault) -> list[str]:
    """What is wrong with layers, in sentences."""
    if fault.why == "shape":
        return _shape_lacks(names, leaf, layers, fault.at)
    move = f"`{names.move(fault.at)}`"
    if fault.why == "no-layer":
        return [f"move {fault.at}, {move}, is in no layer"]
    if fault.why == "not-lower":
        layer = next(layer for layer in layers if fault.at in layer.moves)
        p, q, r, s = leaf.moves[fault.at]
        w = layer.weights
        return [
            f"move {fault.at}, {move}, has to lower the weights of its layer: before it {w[p]} + {w[q]} ="
            f" {w[p] + w[q]}, after it {w[r]} + {w[s]} = {w[r] + w[s]}"
        ]
    return _wakes_lacks(names, leaf, layers, fault)


def _shape_lacks(names: Names, leaf: Leaf, layers: Sequence[Layer], at: int) -> list[str]:
    layer = layers[at]
    if len(layer.weights) != len(leaf.states):
        return [f"layer {at} has {len(layer.weights)} weights, and the leaf {len(leaf.states)} states"]
    seen = {t for earlier in layers[:at] for t in earlier.moves}
    for t in layer.moves:
        if t >= len(leaf.moves):
            return [f"layer {at} lists move {t}: the leaf has the moves 0 to {len(leaf.moves) - 1}"]
        if t in seen:
            return [f"layer {at} lists move {t}, `{names.move(t)}`, which stood before"]
        seen.add(t)
    return []


def _wakes_lacks(names: Names, leaf: Leaf, layers: Sequence[Layer], fault: LayerFault) -> list[str]:
    t, u = fault.at, fault.other
    place = {number: i for i, layer in enumerate(layers) for number in layer.moves}
    before = agents_before(leaf, t, u)
    after = [*leaf.moves[t][2:], *before[2:]]
    return [
        (
            f"move {t}, `{names.move(t)}`, of layer {place[t]} makes move {u}, `{names.move(u)}`, of layer"
            f" {place[u]} possible again"
        ),
        (
            f"before it the agents {', '.join(map(names.state, before))} are there, and no move of a layer before"
            f" {place[t]} is possible among them"
        ),
        f"after it there are {', '.join(map(names.state, after))}, and `{names.move(u)}` is possible",
    ]
