"""Seeded bundles that are mostly no bundles: a value of another kind, a number out of its limits, a list of another
length, an odd predicate, an odd byte."""
from __future__ import annotations

import copy
import json
import random
import re
from typing import Any

ODD: tuple[Any, ...] = (
    -1, True, False, None, 0, 1, 2, 3, 1.5, 1.0, 1 << 16, 1 << 32, 1 << 40, (1 << 40) + 1, -(1 << 40) - 1, 1 << 64, 10**70,
    float("nan"), float("inf"), "", "x", "mod", "and", "not", "lin", "١", "a/b", "é", "\u0000", "A" * 33, [], [[]], {}, [-1],
    [0, 0], [1, 0], [0, 1, 2, 3], [True], [0, 1.0], ["siphon", [-1]], ["first", [True]], ["lin", []], ["open", -1], {"pred": 5},
)  # fmt: skip
PREDICATES = (
    "", "x", "x <", "x < ", "x < ١", "x < ²", "1 < 2", "0*x < 1", "x<1", "x < -1", "x < --1", "x = 1 mod 0", "x = 1 mod 1",
    "x = 1 mod 201", "x = 9 mod 2", "x != 1 mod 2", "x < 1 mod 2", "x < 1099511627776", "x <= 1099511627776",
    "x > -1099511627776", "x < 1099511627777", "2147483648*x < 1", "2147483649*x < 1", "2147483648*x + x < 1",
    "99999999999999999999999*x < 1", "0000000000000000000000000001*x < 1", "x < 00000000000000000000000001",
    "(" * 64 + "x < 1" + ")" * 64, "(" * 65 + "x < 1" + ")" * 65, "!" * 64 + "x < 1", "!" * 65 + "x < 1",
    " && ".join(["x < 1"] * 65), " && ".join(["x < 1"] * 66), "x != 1 && x = 1", "x\t<\t1", "x <\n1", "x < 1\u00a0",
    "x => 1", "x === 1", "x < 1)", "(x < 1", "x + y < 1", "- x < 1", "+ x < 1", "x - - y < 1", "x * 2 < 1", "2 * x < 1",
    "!x < 1", "! (x < 1)", "x < 1 & x < 2", "x <1||x< 2", "z < 1", "X < 1", "x1 < 1", "mod < 1", "x = 1 mod", "x = mod 2",
)  # fmt: skip
BYTES = b'0129-+.eE"\\[]{},: \t\r\x00\xff\xc3\x28xu/'


def _places(value: Any, path: tuple[Any, ...] = ()) -> list[tuple[Any, ...]]:
    """The paths of all values below this one."""
    inner = value.items() if isinstance(value, dict) else enumerate(value) if isinstance(value, list) else ()
    return [one for key, item in inner for one in [(*path, key), *_places(item, (*path, key))]]


def _holder(value: Any, path: tuple[Any, ...]) -> Any:
    for key in path[:-1]:
        value = value[key]
    return value


def _change(value: Any, rng: random.Random) -> None:
    """One place is another."""
    paths = _places(value)
    if not paths:
        return
    path = rng.choice(paths)
    holder, key, kind = _holder(value, path), path[-1], rng.randrange(8)
    if kind == 0:
        del holder[key]
    elif kind == 1 and isinstance(holder, list):
        holder.insert(key, copy.deepcopy(rng.choice(ODD)))
    elif kind == 2 and isinstance(holder, list):
        holder.append(copy.deepcopy(rng.choice(holder)))
    elif kind == 3 and isinstance(holder[key], int):
        holder[key] += rng.choice([-1, 1, 1 << 16, -(1 << 40), 1 << 40])
    elif kind == 4 and isinstance(holder[key], str):
        holder[key] = rng.choice(PREDICATES)
    elif kind == 5:
        other = _holder(value, rng.choice(paths))
        holder[key] = copy.deepcopy(other if len(str(other)) < 1000 else 0)
    else:
        holder[key] = copy.deepcopy(rng.choice(ODD))


def malformed(value: Any, seed: int) -> bytes:
    """A line of a file, which may also be a bundle still; it ends without a line feed."""
    rng = random.Random(seed)
    made = copy.deepcopy(value)
    if rng.random() < 0.3:
        made["pred"] = rng.choice(PREDICATES)
        if rng.random() < 0.5:
            made["proof"][0]["pred"] = rng.choice(PREDICATES)
    else:
        for _ in range(rng.choice([1, 1, 2])):
            _change(made, rng)
    data = json.dumps(made, separators=(",", ":"), ensure_ascii=rng.random() < 0.5).encode("utf-8", "surrogatepass")
    if rng.random() < 0.05:
        zeros = [at.start() + 1 for at in re.finditer(rb"[\[,:]0(?=[,\]}])", data)]
        at = rng.choice(zeros) if zeros else 0
        data = data[:at] + b"-" * bool(at) + data[at:]
    if rng.random() < 0.15:
        at = rng.randrange(len(data))
        data = data[:at] + bytes([rng.choice(BYTES)]) + data[at + rng.randrange(2) :]
    return data.replace(b"\n", b" ")
