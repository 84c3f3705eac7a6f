#!/usr/bin/python3
"""Times the check of both trees of the widest built leaf: a threshold leaf of 255 states and 17,936 moves.

bench/tree.py

The program stands below; it is proved and built in a folder of its own over copies of the crates it calls. It reads a
bundle and checks its proof, whose parts are examined in order, so a bundle whose later parts are empty stops there.
"""
from __future__ import annotations

import json
import os
import subprocess
import tempfile
import time
from collections.abc import Iterator
from typing import Any

from common import source
from over_crates import Small, built_over

# the greatest value of a state, the bound, and the coefficients
TOP_VALUE, BOUND, COEFS = 42, 41, [42, -42]
VALUES = range(-TOP_VALUE, TOP_VALUE + 1)
WIDE = len(VALUES)

Node = list[Any]
MAIN = source("kit/tree.rt.in")


def leader(u: int) -> int:
    return u + TOP_VALUE


def follower(bit: int, v: int) -> int:
    return WIDE * (1 + bit) + v + TOP_VALUE


def meeting(u: int, v: int) -> tuple[int, int]:
    """The leader's value and the follower after a leader of value u has met a value v."""
    q = max(-TOP_VALUE, min(TOP_VALUE, u + v))
    return q, follower(q < BOUND, u + v - q)


def moves_of_leaf() -> tuple[list[list[int]], list[int]]:
    """The moves, and the number of the layer that each is in."""
    moves: list[list[int]] = []
    layers: list[int] = []
    for u in VALUES:
        for v in range(u, TOP_VALUE + 1):
            q, left = meeting(u, v)
            moves.append([leader(u), leader(v), leader(q), left])
            layers.append(0)
    for u in VALUES:
        for bit in (0, 1):
            for v in VALUES:
                q, left = meeting(u, v)
                if (q, left) != (u, follower(bit, v)):
                    moves.append([leader(u), follower(bit, v), leader(q), left])
                    layers.append(0 if q != u else 1 + bit)
    return moves, layers


def layers_of(numbers: list[int]) -> list[dict[str, list[int]]]:
    weights = [
        [TOP_VALUE + 1] * WIDE + [abs(v) for v in VALUES] * 2,
        [0] * WIDE + [1] * WIDE + [0] * WIDE,
        [0] * WIDE + [0] * WIDE + [1] * WIDE,
    ]
    return [{"moves": [t for t, layer in enumerate(numbers) if layer == i], "weights": weights[i]} for i in range(3)]


def tree_of(moves: list[list[int]], outputs: list[bool], value: bool) -> list[Node]:
    """The nodes: the predicate, the trap of all leaders, and each leader state in turn."""
    count = len(outputs)
    partners: list[set[int]] = [set() for _ in range(count)]
    for p, q, _, _ in moves:
        partners[p].add(q)
        partners[q].add(p)
    trap = count + 4
    inputs = [[trap + len(moves) + i, -1] for i in range(len(COEFS))]
    nodes: list[Node] = [
        ["open", count + 1],
        ["trap", list(range(WIDE))],
        ["lin", [[trap, 1]]],
        ["lin", [[count, 1]] + inputs],
    ]
    nodes += [["present", p] for p in range(WIDE)]
    nodes.append(["lin", [[trap, 1]] + [[trap + 1 + p, -1] for p in range(WIDE)]])
    for p in reversed(range(WIDE)):
        nodes.append(["lin", leaf_terms(p, sorted(partners[p] - {p}), outputs, value)])
    return nodes


def leaf_terms(p: int, partners: list[int], outputs: list[bool], value: bool) -> list[list[int]]:
    """The facts that are named where leader state p is left: it occurs once, and the states that it meets are
    absent."""
    count = len(outputs)
    first = count + 5
    absent = {q: first + q for q in range(p)}
    absent.update({q: first + p + 1 + i for i, q in enumerate(partners)})
    if outputs[p] == value:
        return [[count + 2, 1]] + [[fact, -1] for q, fact in absent.items() if outputs[q] != value]
    sign = 1 if value else -1
    worth = list(VALUES) * 3
    terms = [[q, sign * worth[q]] for q in range(count)] + [[first + p + 1 + len(partners), sign * worth[p]]]
    terms += [[fact, sign * worth[q]] for q, fact in absent.items()]
    return [[count + 3, 1]] + [term for term in terms if term[1] != 0]


def bundles() -> Iterator[tuple[str, str]]:
    """What is examined, and the bundle."""
    moves, numbers = moves_of_leaf()
    outputs = [u < BOUND for u in VALUES] + [False] * WIDE + [True] * WIDE
    names = [letter + str(v) for letter in "Lft" for v in VALUES]
    net = {
        "format": 1,
        "vars": ["x", "y"],
        "combine": [0],
        "leaves": [{"states": names, "moves": moves, "input": [leader(a) for a in COEFS], "output": outputs}],
    }
    pred = f"{COEFS[0]}*x - {-COEFS[1]}*y < {BOUND}"
    layers = layers_of(numbers)
    on_true, on_false = (tree_of(moves, outputs, value) for value in (True, False))
    print(f"{len(names)} states, {len(moves)} moves, {len(on_true)} and {len(on_false)} nodes")
    for what, parts in [
        ("nothing", ([], on_true, on_false)),
        ("the layers", (layers, [], on_false)),
        ("the layers and the tree for true", (layers, on_true, [])),
        ("the layers and both trees", (layers, on_true, on_false)),
    ]:
        part = dict(zip(["layers", "true", "false"], parts), pred=pred)
        yield what, json.dumps({"net": net, "pred": pred, "proof": [part]})


def built(folder: str) -> str:
    uses = ["pop_io", "cert_json", "pop_checker", "serde_json"]
    return built_over(folder, {"trees": Small(uses, {"src/main.rt": MAIN})})["trees"]


def measured(program: str, path: str) -> tuple[float, float, int, int]:
    """The least wall clock and processor times of three runs in seconds, the greatest memory in bytes, the exit
    status."""
    times, worked, memory, status = [], [], 0, 0
    for _ in range(3):
        with open(path, "rb") as data:
            start = time.monotonic()
            child = subprocess.Popen([program], stdin=data)
            _, status, usage = os.wait4(child.pid, 0)
            times.append(time.monotonic() - start)
            worked.append(usage.ru_utime + usage.ru_stime)
            memory = max(memory, usage.ru_maxrss * 1024)
    return min(times), min(worked), memory, os.waitstatus_to_exitcode(status)


def main() -> None:
    with tempfile.TemporaryDirectory() as folder:
        program = built(os.path.join(folder, "crate"))
        path = os.path.join(folder, "bundle")
        for what, line in bundles():
            with open(path, "w") as file:
                file.write(line + "\n")
            seconds, worked, memory, status = measured(program, path)
            print(
                (
                    f"{len(line)} bytes read and {what} checked: {seconds:.3f} s, {worked:.3f} s of a processor, "
                    f"{memory / 1e6:.0f} MB, exit status {status}"
                ),
                flush=True,
            )


if __name__ == "__main__":
    main()
