"""Protocols in the JSON of Peregrine, read and written: states, transitions with `pre` and `post`, `initialStates`,
`trueStates`, and a predicate over `C[state]`, the agents that begin in a state."""
from __future__ import annotations

import json
import re
from typing import Any, Sequence

from ..faults import InputFault
from ..protocol.naming import state_text
from ..protocol.nets import is_state_name, is_variable_name
from ..protocol.predicatereader import read_predicate
from ..protocol.predicates import And, Less, Not, Predicate, Rest, sum_text
from .loaded import Loaded
from .writer import head

MEMBERS = ("states", "transitions", "initialStates", "trueStates")
_COUNT = re.compile(r"C\[([^\[\]]*)\]")
_EXISTS = re.compile(r"EXISTS\s+(\w+)\s*:\s*([^=]+?)\s*=\s*([^=]+)$", re.IGNORECASE)
_REST = re.compile(r"(?:(-?[0-9]+)\s*\+\s*)?([0-9]+)\s*\*\s*(\w+)")


def is_peregrine(value: Any) -> bool:
    """Whether a JSON value is such a protocol."""
    return isinstance(value, dict) and all(name in value for name in MEMBERS)


def _texts(value: Any, path: str, name: str) -> list[str]:
    if not isinstance(value, list):
        raise InputFault(f"{name}: `{path}` is a list of names")
    return [str(one) for one in value]


def pop_text(value: dict[str, Any], name: str) -> str:
    """The `.pop` text of a protocol of Peregrine; InputFault where there is none."""
    states = _texts(value["states"], "states", name)
    if odd := [state for state in states if not is_state_name(state)]:
        raise InputFault(f"{name}: `{odd[0]}` is no state: 1 to 32 printed signs without blanks and `/`")
    if value.get("leaders"):
        raise InputFault(f"{name}: leaders aren't read: `helpers` of a .pop file are such agents")
    inputs = {state: _variable(state, at) for at, state in enumerate(_texts(value["initialStates"], "", name))}
    lines = [head("states", " ".join(map(state_text, states)))]
    lines.append(head("inputs", "   ".join(f"{variable}: {state_text(state)}" for state, variable in inputs.items())))
    lines += [_move(one, name, at) for at, one in enumerate(value["transitions"])]
    lines.append(head("yes", " ".join(map(state_text, _texts(value["trueStates"], "trueStates", name)))))
    predicate = value.get("predicate") or value.get("postcondition")
    if isinstance(predicate, str) and predicate.strip():
        lines.append(head("predicate", _own(predicate, inputs, name)))
    return "\n".join(line.rstrip() for line in lines) + "\n"


def _variable(state: str, at: int) -> str:
    return state if is_variable_name(state) else f"x{at}"


def _move(one: Any, name: str, at: int) -> str:
    path = f"transitions/{at}"
    if not isinstance(one, dict):
        raise InputFault(f"{name}: `{path}` is an object with `pre` and `post`")
    before, after = (_texts(one.get(part), f"{path}/{part}", name) for part in ("pre", "post"))
    if len(before) != 2 or len(after) != 2:
        raise InputFault(f"{name}: `{path}` isn't of two agents")
    p, q, r, s = map(state_text, (*before, *after))
    return f"{p} + {q} -> {r} + {s}"


def _own(text: str, inputs: dict[str, str], name: str) -> str:
    """A predicate over variables."""

    def variable(found: re.Match[str]) -> str:
        if found[1] not in inputs:
            raise InputFault(f"{name}: the predicate counts `{found[1]}`, which is no initial state")
        return inputs[found[1]]

    made = _COUNT.sub(variable, text)
    exists = _EXISTS.fullmatch(made.strip())
    if exists is None:
        return made
    rest = _REST.fullmatch(exists[3].strip())
    if rest is None or rest[3] != exists[1]:
        raise InputFault(f"{name}: of quantified predicates only `EXISTS k : SUM = 1 + 3 * k` is read, found `{text}`")
    return f"{exists[2]} = {int(rest[1] or 0) % int(rest[2])} mod {rest[2]}"


def peregrine_text(loaded: Loaded, title: str) -> str:
    """A net of one leaf in that JSON; InputFault where there is none."""
    net = loaded.net
    if len(net.leaves) > 1 or net.leaves[0].helpers:
        raise InputFault("Peregrine's protocols are one leaf without helpers")
    leaf = net.leaves[0]
    if any(law.ordered or law.chance is not None for law in leaf.laws):
        raise InputFault("Peregrine's protocols know no chances and no orders")
    begin = [leaf.states[q] for q in leaf.inputs]
    made: dict[str, Any] = {
        "title": title,
        "states": list(leaf.states),
        "transitions": [_transition(leaf.states, leaf.moves[t]) for t in leaf.active],
        "initialStates": list(dict.fromkeys(begin)),
        "trueStates": [state for state, output in zip(leaf.states, leaf.outputs) if output],
    }
    if loaded.predicate is not None:
        if len(set(begin)) < len(begin):
            raise InputFault("two variables begin in one state, and Peregrine's predicates count initial states")
        made["predicate"] = _counted(read_predicate(loaded.predicate, net.names), [f"C[{state}]" for state in begin])
    return json.dumps(made, indent=2, ensure_ascii=False) + "\n"


def _transition(states: Sequence[str], move: tuple[int, int, int, int]) -> dict[str, Any]:
    p, q, r, s = (states[at] for at in move)
    return {"name": f"{p}, {q} -> {r}, {s}", "pre": [p, q], "post": [r, s]}


def _counted(tree: Predicate, names: Sequence[str]) -> str:
    if isinstance(tree, Less):
        return f"{sum_text(tree.coefficients, names)} < {tree.bound}"
    if isinstance(tree, Rest):
        return f"EXISTS k : {sum_text(tree.coefficients, names)} = {tree.rest} + {tree.modulus} * k"
    if isinstance(tree, Not):
        return f"!({_counted(tree.part, names)})"
    sign = "&&" if isinstance(tree, And) else "||"
    parts = [_counted(part, names) for part in (tree.left, tree.right)]
    if any(part.startswith("EXISTS") for part in parts):
        raise InputFault("a remainder inside of a larger predicate has no form in Peregrine's JSON")
    return f"({parts[0]} {sign} {parts[1]})"
