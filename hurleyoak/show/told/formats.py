"""Sentences on `fault: not json` and `fault: format PATH WHY`: the rule, what stands there, and the place."""
from __future__ import annotations

import json
import re
from typing import Any

from ...engine.inputs import Asked
from ...text.jsontext import read_json
from .places import place_of, value_at
from .predicates import predicate_told
from .quoting import quoted, short

LAYERS = r"/proof/\d+(?:/goals/\d+)?/layers"
TREE = r"/proof/\d+/(?:true|false|goals/\d+/nodes)"
# the rule of each value, by a pattern of its path below the net or the bundle
RULES = [
    (r"/format", "`format` is the whole number 1, or 2 for a net with helpers"),
    (r"/vars", "`vars` is a list of 1 to 16 names of variables"),
    (
        r"/vars/\d+",
        (
            "a variable's name is a text of 1 to 32 letters, digits and `_`, no digit first; it is not `mod`, "
            "and comes once"
        ),
    ),
    (r"/leaves", "`leaves` is a list of 1 to 8 protocols"),
    (
        r"/leaves/\d+",
        (
            "a leaf is an object with `states`, `moves`, `input` and `output`; where a leaf has more than "
            "256 states, there are at most 4 leaves"
        ),
    ),
    (r"/leaves/\d+/states", "`states` is a list of 1 to 512 names"),
    (
        r"/leaves/\d+/states/\d+",
        "a state's name is a text of 1 to 32 printed ASCII characters without blanks and `/`, and comes once",
    ),
    (r"/leaves/\d+/moves", "`moves` is a list of at most 65,536 moves"),
    (
        r"/leaves/\d+/moves/\d+",
        "a move is a list of four numbers of states, [p,q,r,s]: two agents in p and q become r and s",
    ),
    (r"/leaves/\d+/moves/\d+/\d+", "a move names states by number{states}"),
    (r"/leaves/\d+/input", "`input` has the number of a state for each variable{inputs}"),
    (r"/leaves/\d+/input/\d+", "`input` names states by number{states}"),
    (r"/leaves/\d+/output", "`output` has `true` or `false` for each state{outputs}"),
    (r"/leaves/\d+/output/\d+", "an output is `true` or `false`"),
    (
        r"/leaves/\d+/helpers",
        "`helpers` is a list of at most 1,024 numbers of states, in format 2, as many in each leaf as in leaf 0",
    ),
    (r"/leaves/\d+/helpers/\d+", "`helpers` names states by number{states}"),
    (r"/combine", '`combine` is a list of 1 to 1,024 items in postfix, after which one value is left, as [0,1,"and"]'),
    (
        r"/combine/\d+",
        (
            'an item of `combine` is the number of a leaf{leaves}, "not", "and" or "or"; it comes '
            "after its operands, at most 65 deep"
        ),
    ),
    (r"/net", "a bundle is an object with the members `net`, `pred` and `proof`"),
    (r"/pred", "`pred` is the predicate, a text"),
    (r"/proof", "`proof` is a list with one object for each leaf of the net"),
    (
        r"/proof/\d+",
        "the proof of a leaf is an object with `pred` and `goals`, or with `pred`, `layers`, `true` and `false`",
    ),
    (r"/proof/\d+/pred", "`pred` is the leaf's predicate, a text"),
    (r"/proof/\d+/goals", "`goals` is a list of two goals: first the one for true, then the one for false"),
    (r"/proof/\d+/goals/\d+", "a goal is an object with `layers` and `nodes`, and with `sets` where it has some"),
    (r"/proof/\d+/goals/\d+/sets", "`sets` is a list of at most 64 sets of states"),
    (r"/proof/\d+/goals/\d+/sets/\d+(/\d+)?", "a set is a list of states that ascend strictly, each below 2^16"),
    (rf"{LAYERS}", "`layers` is a list of at most 256 layers"),
    (rf"{LAYERS}/\d+", "a layer is an object with `moves` and `weights`"),
    (rf"{LAYERS}/\d+/moves", "a layer's `moves` is a list of at most 65,536 numbers of moves"),
    (rf"{LAYERS}/\d+/moves/\d+", "a layer names moves by number, each below 2^32"),
    (rf"{LAYERS}/\d+/weights", "`weights` is a list of at most 512 numbers, one for each state"),
    (rf"{LAYERS}/\d+/weights/\d+", "a weight is a whole number of at most 2^40 in size"),
    (rf"{TREE}", "a tree is a list of at most 1,000,000 nodes"),
    (
        rf"{TREE}/\d+",
        'a node is a list: its word, and the items that the word asks for, as ["present",0] or ["lin",[[0,1]]]',
    ),
    (rf"{TREE}/\d+/0", "a node's word is lin, residue, split, present, twin, trap, siphon, first or open"),
    (
        rf"{TREE}/\d+/\d+",
        (
            "a node's item is a number, or a list of at most 65,536 terms or 512 "
            "states. A modulus is 2 to 200, a constant at most 2^40 in size"
        ),
    ),
    (rf"{TREE}/\d+/\d+/\d+", "a term is a list of two numbers; states ascend strictly, each below 2^16"),
    (
        rf"{TREE}/\d+/\d+/\d+/\d+",
        (
            "a term has a number below 2^32, of a variable in ascending order "
            "or of a fact, and a factor of at most 2^40 in size"
        ),
    ),
]
KINDS: dict[type, str] = {
    dict: "an object",
    list: "a list",
    str: "a text",
    bool: "true or false",
    int: "a number",
    float: "no whole number",
}


def _value(line: str) -> Any:
    try:
        return read_json(line)
    except (ValueError, RecursionError):
        return None


def _filled(rule: str, value: Any, path: str) -> str:
    net = value.get("net", value) if isinstance(value, dict) else {}
    leaves = net.get("leaves") if isinstance(net, dict) else None
    found = re.match(r"(?:/net)?/leaves/(\d+)", path)
    leaf = (
        leaves[int(found.group(1))] if found and isinstance(leaves, list) and int(found.group(1)) < len(leaves) else {}
    )
    states = len(leaf["states"]) if isinstance(leaf, dict) and isinstance(leaf.get("states"), list) else 0
    variables = len(net["vars"]) if isinstance(net, dict) and isinstance(net.get("vars"), list) else 0
    return rule.format(
        states=f", and this leaf has the states 0 to {states - 1}" if states else "",
        inputs=f", and there are {variables}" if variables else "",
        outputs=f", and there are {states}" if states else "",
        leaves=f" (here 0 to {len(leaves) - 1})" if isinstance(leaves, list) and leaves else "",
    )


def _found(value: Any, path: str) -> str:
    is_there, at = value_at(value, path)
    if not is_there:
        return "is missing"
    if isinstance(at, (dict, list)):
        return f"is {KINDS[type(at)]} of {len(at)}"
    return f"is {short(json.dumps(at, ensure_ascii=False))}"


def shown_place(asked: Asked, path: str) -> list[str]:
    """Where the value stands: file, line and column, the line and a caret."""
    text = (asked.original or (asked.lines or [""])[0]).lstrip("\ufeff")
    at = place_of(text, path)
    if at is None:
        return []
    start = text.rfind("\n", 0, at) + 1
    line = text[start:].split("\n", 1)[0]
    number = text.count("\n", 0, start) + 1
    return [f"{asked.file or 'the input'}:{number}:{at - start + 1}", *quoted(line, at - start)]


def format_told(asked: Asked, path: str, why: str) -> list[str]:
    """The rule that is broken first, and by what."""
    line = asked.lines[0] if asked.lines else ""
    value = _value(line)
    if isinstance(value, dict):
        net_given = "leaves" in value and "net" not in value and path == "/net"
        proof_missing = path == "/proof" and "proof" not in value
        if net_given or proof_missing:
            what = "a net" if net_given else "a bundle without a proof"
            return [
                f"this is {what}; `{asked.words[0]}` takes a bundle: a net with its predicate and proof",
                f"`pop find {asked.file or 'FILE'} PREDICATE` looks for a proof",
            ]
        if "net" in value and path == "/format":
            return [
                "this is a bundle; `play` takes the net alone: `pop play FILE` with the bundle's file plays its net"
            ]
    if why.startswith("pred "):
        _, text = value_at(value, path)
        _, names = value_at(value, "/net/vars")
        told = predicate_told(
            why.split(" ")[1],
            int(why.split(" ")[2]),
            text if isinstance(text, str) else "",
            names if isinstance(names, list) else [],
        )
        return [f"{path}: {told[0]}", *told[1:]]
    below = path.removeprefix("/net") if path != "/net" else path
    rule = next(
        (rule for pattern, rule in RULES if re.fullmatch(pattern, below)), "a net and a bundle are objects, `{..}`"
    )
    if not path:
        return [f"{rule}; this is {KINDS.get(type(value), 'null')}", *shown_place(asked, path)]
    return [f"{path} {_found(value, path)}: {_filled(rule, value, path)}", *shown_place(asked, path)]


def not_json_told(asked: Asked) -> list[str]:
    """Where a text stops being JSON."""
    text = (asked.original or (asked.lines or [""])[0]).lstrip("\ufeff")
    name = asked.file or "line 1"
    if text.lstrip()[:1] not in ("{", "["):
        first = short(text.split("\n")[0])
        if first.startswith("crowd"):
            return [f"{name} is a crowd line; the net or bundle comes before it, on a line of its own"]
        return [
            f"{name} begins with `{first}`, and a net or a bundle is JSON, `{{..}}`; a .pop file is given as an "
            f"argument: `pop {asked.words[0]} FILE`"
        ]
    try:
        json.loads(text, parse_constant=_refuse)
    except json.JSONDecodeError as error:
        line = text.split("\n")[error.lineno - 1]
        place = f"{name}:{error.lineno}:{error.colno}" if asked.original else f"{name}, column {error.colno}"
        return [f"{place}: this is no JSON: {_reason(text, error)}", *quoted(line, error.colno - 1)]
    except (ValueError, RecursionError) as error:
        return [f"{name} is no JSON: {error if isinstance(error, ValueError) else 'it is nested too deeply'}"]
    return [f"{name} is no JSON"]


def _refuse(text: str) -> Any:
    raise ValueError(f"`{text}` is no number of JSON")


def _reason(text: str, error: json.JSONDecodeError) -> str:
    if not text[error.pos :].strip():
        return "it ends too early"
    before = text[: error.pos].rstrip()
    rest = text[error.pos : error.pos + 5]
    if error.msg.startswith("Extra data"):
        crowd = text[error.pos :].lstrip().startswith("crowd")
        return (
            "the crowd is on the line of the bundle; put a line feed before `crowd`"
            if crowd
            else "the value ends before this"
        )
    if before.endswith(",") and (rest[:1] in "]}" or error.msg.startswith("Expecting property")) and rest[:1] != "'":
        return "there is a comma after the last item"
    if rest[:1] == "'" or error.msg.startswith("Expecting property") and rest[:1] == "'":
        return "put texts in double quotes"
    if rest.startswith(("True", "False", "None")):
        return f"write `{'true' if rest[0] == 'T' else 'false' if rest[0] == 'F' else 'null'}`, in small letters"
    if rest[:1] in ("/", "#"):
        return "JSON has no comments"
    return error.msg[0].lower() + error.msg[1:]
