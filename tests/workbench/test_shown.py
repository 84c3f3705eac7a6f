"""`show` prints what docs/reference/formats.md says: the certified bundle by names, or the line of `check`."""
from __future__ import annotations

import json
import re
from pathlib import Path
from typing import Any

import pytest

from hurleyoak.engine import program
from hurleyoak.protocol.predicatereader import read_predicate
from hurleyoak.protocol.predicates import canonical_text

from .changes import changed
from .conftest import CHANGES, COMPILED, example_paths, needs_program

Leaf = dict[str, Any]
SHOW, CHECK = ["show"], ["check"]
PLAIN = re.compile(r"(?!-)[\w'.^~@$%-]+", re.ASCII)


def quoted(name: str) -> str:
    """A name as a `.pop` file has it: in double quotes, unless it is plain."""
    return name if PLAIN.fullmatch(name) else '"' + re.sub(r'(["\\])', r"\\\1", name) + '"'


def spaced(words: list[str]) -> str:
    """Each word behind a blank."""
    return "".join(f" {word}" for word in words)


def states_of(leaf: Leaf, numbers: list[int]) -> list[str]:
    """The names of these states."""
    return [quoted(leaf["states"][number]) for number in numbers]


def move_text(leaf: Leaf, number: int) -> str:
    """A move by names."""
    p, q, r, s = states_of(leaf, leaf["moves"][number])
    return f"{p} + {q} -> {r} + {s}"


def layer_lines(leaf: Leaf, number: int, layer: Any) -> list[str]:
    """A layer: the weights of the states, and the moves that it lists."""
    weights = [f"{quoted(name)}: {weight}" for name, weight in zip(leaf["states"], layer["weights"])]
    listed = [f"lists {move_text(leaf, move)}" for move in layer["moves"]]
    return [f"layer {number}", "weights" + spaced(weights), *listed]


def all_layer_lines(leaf: Leaf, layers: list[Any]) -> list[str]:
    """All layers, numbered from 0."""
    return [line for i, layer in enumerate(layers) for line in layer_lines(leaf, i, layer)]


def goal_lines(leaf: Leaf, value: str, goal: Any) -> list[str]:
    """What is to be reached from the inputs with this value: its layers, and the sets that the file lists."""
    sets = ["set" + spaced(states_of(leaf, states)) for states in goal.get("sets", [])]
    return [f"goal {value}", *all_layer_lines(leaf, goal["layers"]), *sets]


def part_lines(leaf: Leaf, part: Any) -> list[str]:
    """The layers of a leaf that falls silent, or both goals."""
    if "goals" not in part:
        return all_layer_lines(leaf, part["layers"])
    return [line for value, goal in zip(("true", "false"), part["goals"]) for line in goal_lines(leaf, value, goal)]


def leaf_lines(names: list[str], number: int, leaf: Leaf, pred: str, part: Any) -> list[str]:
    """A leaf, whose predicate is written canonically."""
    starts = [f"{quoted(name)}: {state}" for name, state in zip(names, states_of(leaf, leaf["input"]))]
    helpers = states_of(leaf, leaf.get("helpers", []))
    outputs = list(zip(map(quoted, leaf["states"]), leaf["output"]))
    return [
        f"leaf {number}",
        f"computes {pred}",
        "states" + spaced([quoted(name) for name in leaf["states"]]),
        "inputs" + spaced(starts),
        *(["helpers" + spaced(helpers)] if helpers else []),
        "yes" + spaced([name for name, output in outputs if output]),
        "no" + spaced([name for name, output in outputs if not output]),
        *(f"move {move_text(leaf, move)}" for move in range(len(leaf["moves"]))),
        *part_lines(leaf, part),
    ]


def canonical(text: str, names: list[str]) -> str:
    """A predicate as the program writes it."""
    return canonical_text(read_predicate(text, names), names)


def shown(value: Any, certified: str) -> str:
    """The text for a bundle whose check printed this line."""
    net, names = value["net"], value["net"]["vars"]
    lines = [
        certified,
        f"predicate {canonical(value['pred'], names)}",
        "variables" + spaced([quoted(name) for name in names]),
        "combine" + spaced([str(item) for item in net["combine"]]),
    ]
    for number, (leaf, part) in enumerate(zip(net["leaves"], value["proof"])):
        known = leaf if net["format"] == 2 else {**leaf, "helpers": []}
        lines += leaf_lines(names, number, known, canonical(part["pred"], names), part)
    return "".join(f"{line}\n" for line in lines)


def agree(text: str, value: Any) -> None:
    """`show` prints the listing where `check` says `certified` or `stable`, and else the same."""
    checked, answer = program.ask(CHECK, text), program.ask(SHOW, text)
    assert answer.status == checked.status
    if checked.status == program.DONE:
        assert answer.text == shown(value, checked.text.removesuffix("\n"))
    else:
        assert answer.text == checked.text


@needs_program
@pytest.mark.parametrize("path", example_paths(), ids=lambda path: f"{path.parent.name}/{path.name}")
def test_every_example(path: Path) -> None:
    """Certified and rejected ones."""
    value = json.loads(path.read_text())
    agree(json.dumps(value) + "\n", value)


@needs_program
@pytest.mark.parametrize("text", COMPILED)
def test_compiled_bundles(text: str) -> None:
    """Several leaves, negations, remainders and flocks."""
    line = program.ask(["compile", "--flocks"], text).text
    agree(line, json.loads(line))


@needs_program
def test_seeded_changes() -> None:
    """Files that are refused, and proofs that are rejected, as `check` does."""
    values = [json.loads(path.read_text()) for path in example_paths()]
    for seed in range(CHANGES):
        value = changed(values[seed % len(values)], seed)
        agree(json.dumps(value) + "\n", value)


@needs_program
@pytest.mark.parametrize("text", ["", "{", "{}\n{}\n", "3\n"])
def test_refused_files(text: str) -> None:
    """No line, no JSON, a line too many, no bundle."""
    checked = program.ask(CHECK, text)
    assert checked.status == program.REFUSED
    assert program.ask(SHOW, text) == checked
