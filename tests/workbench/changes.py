"""Seeded changes of bundles: one or two places of a proof, a net or a predicate are made another."""
from __future__ import annotations

import copy
import random
from typing import Any, Callable

Value = dict[str, Any]
Change = Callable[[Value, random.Random], None]


def _leaf(value: Value, rng: random.Random) -> tuple[Value, Value]:
    at = rng.randrange(len(value["net"]["leaves"]))
    return value["net"]["leaves"][at], value["proof"][at]


def _goals(part: Value) -> list[Value]:
    """The goals of a leaf's proof, where it has some."""
    goals: list[Value] = part.get("goals", [])
    return goals


def _layers(part: Value, rng: random.Random) -> list[Value]:
    """The layers of a leaf's proof, or of one of its goals."""
    goals = _goals(part)
    layers: list[Value] = (rng.choice(goals) if goals else part)["layers"]
    return layers


def drop_move(value: Value, rng: random.Random) -> None:
    """A move of the net goes, and layers are renumbered, so that the proof alone suffers."""
    leaf, part = _leaf(value, rng)
    if not leaf["moves"]:
        return
    t = rng.randrange(len(leaf["moves"]))
    del leaf["moves"][t]
    for proof in _goals(part) or [part]:
        for layer in proof["layers"]:
            layer["moves"] = [u - (u > t) for u in layer["moves"] if u != t]


def change_move(value: Value, rng: random.Random) -> None:
    """A move's result is another."""
    leaf, _ = _leaf(value, rng)
    if leaf["moves"]:
        move = rng.choice(leaf["moves"])
        move[rng.randrange(4)] = rng.randrange(len(leaf["states"]))


def change_weight(value: Value, rng: random.Random) -> None:
    """A weight is another."""
    _, part = _leaf(value, rng)
    layers = _layers(part, rng)
    if layers:
        weights = rng.choice(layers)["weights"]
        if weights:
            weights[rng.randrange(len(weights))] += rng.choice([-1, 1, 2])


def change_layers(value: Value, rng: random.Random) -> None:
    """Layers change places, or a move goes to another layer, or is listed twice or not at all."""
    _, part = _leaf(value, rng)
    layers = _layers(part, rng)
    if not layers:
        return
    kind = rng.randrange(4)
    layer = rng.choice(layers)
    if kind == 0:
        rng.shuffle(layers)
    elif layer["moves"]:
        t = layer["moves"].pop(rng.randrange(len(layer["moves"])))
        if kind == 1:
            rng.choice(layers)["moves"].append(t)
        elif kind == 2:
            layer["moves"] += [t, t]


def _nodes(value: Value, rng: random.Random) -> list[Any]:
    _, part = _leaf(value, rng)
    goals = _goals(part)
    nodes: list[Any] = rng.choice(goals)["nodes"] if goals else part[rng.choice(["true", "false"])]
    return nodes


def change_sets(value: Value, rng: random.Random) -> None:
    """A goal's set gets a state or loses one, or one more set stands beside it, or all are left out."""
    leaf, part = _leaf(value, rng)
    if not _goals(part):
        return
    goal = rng.choice(_goals(part))
    right = [q for q, b in enumerate(leaf["output"]) if b == (goal is _goals(part)[0])]
    sets = goal.setdefault("sets", [right])
    kind = rng.randrange(4)
    if kind == 0:
        del goal["sets"]
    elif kind == 1:
        sets.append(sorted(rng.sample(right, rng.randint(0, len(right)))))
    else:
        at = rng.randrange(len(sets))
        sets[at] = sorted(
            set(sets[at]) ^ {rng.choice(right + [0]) if kind == 2 else rng.randrange(len(leaf["states"]))}
        )


def change_term(value: Value, rng: random.Random) -> None:
    """A term of a `lin` or `residue` is another, is gone, or stands twice."""
    nodes = [n for n in _nodes(value, rng) if n[0] in ("lin", "residue") and n[-1]]
    if not nodes:
        return
    terms = rng.choice(nodes)[-1]
    at = rng.randrange(len(terms))
    kind = rng.randrange(4)
    if kind == 0:
        terms[at] = [max(0, terms[at][0] + rng.choice([-1, 1, 40])), terms[at][1]]
    elif kind == 1:
        terms[at] = [terms[at][0], rng.choice([-terms[at][1], terms[at][1] + 1, 0, terms[at][1] * 3])]
    elif kind == 2:
        del terms[at]
    else:
        terms.append(list(terms[at]))


def change_node(value: Value, rng: random.Random) -> None:
    """A node is gone, stands twice, changes places, or names another state, set or fact."""
    nodes = _nodes(value, rng)
    if not nodes:
        return
    at = rng.randrange(len(nodes))
    kind = rng.randrange(4)
    node = nodes[at]
    if kind == 0:
        del nodes[at]
    elif kind == 1:
        nodes.insert(at, copy.deepcopy(node))
    elif kind == 2:
        other = rng.randrange(len(nodes))
        nodes[at], nodes[other] = nodes[other], nodes[at]
    elif node[0] in ("present", "twin", "open"):
        node[1] = max(0, node[1] + rng.choice([-1, 1, 2]))
    elif node[0] in ("trap", "siphon", "first"):
        node[1] = sorted(set(node[1]) ^ {rng.randrange(6)})
    elif node[0] == "residue":
        node[1] = rng.choice([2, 3, 5])


def insert_node(value: Value, rng: random.Random) -> None:
    """A node more stands somewhere."""
    nodes = _nodes(value, rng)
    made: list[Any] = rng.choice(
        [
            ["twin", rng.randrange(4)],
            ["present", rng.randrange(5)],
            ["lin", []],
            ["open", rng.randrange(9)],
            ["split", [[rng.randrange(5), 1]], -1],
            ["trap", [rng.randrange(4)]],
            ["siphon", [rng.randrange(4)]],
            ["first", [rng.randrange(4)]],
        ]
    )
    nodes.insert(rng.randrange(len(nodes) + 1), made)


def change_net(value: Value, rng: random.Random) -> None:
    """An output or a start state is another."""
    leaf, _ = _leaf(value, rng)
    if rng.randrange(2):
        at = rng.randrange(len(leaf["output"]))
        leaf["output"][at] = not leaf["output"][at]
    else:
        leaf["input"][rng.randrange(len(leaf["input"]))] = rng.randrange(len(leaf["states"]))


def change_predicate(value: Value, rng: random.Random) -> None:
    """The predicate, or a leaf's, is another."""
    name = value["net"]["vars"][0]
    made = rng.choice([f"{name} >= 2", f"{name} < 3", f"!({name} = 1 mod 2)", f"{name} = 2"])
    _, part = _leaf(value, rng)
    if rng.randrange(2):
        part["pred"] = made
    else:
        value["pred"] = made


ALL: list[Change] = [
    drop_move,
    change_move,
    change_weight,
    change_layers,
    change_term,
    change_term,
    change_node,
    change_node,
    insert_node,
    change_net,
    change_predicate,
]
OF_GOALS: list[Change] = [*ALL, change_sets, change_sets, change_layers, change_layers]


def changed(value: Value, seed: int) -> Value:
    """A bundle's value with one change, and sometimes two."""
    rng = random.Random(seed)
    out = copy.deepcopy(value)
    kinds = OF_GOALS if any(map(_goals, value["proof"])) else ALL
    for _ in range(1 + (rng.random() < 0.3)):
        rng.choice(kinds)(out, rng)
    return out
