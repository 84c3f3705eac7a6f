#!/usr/bin/env python3
"""Limits of the program: hurleyoak/limits.py and docs/reference/limits.md are written from the crates' constants.

`tests/limits.py --write` writes both; without a word it checks that they are what the sources say.
"""
from __future__ import annotations

import re
import sys
from pathlib import Path

TOP = Path(__file__).resolve().parent.parent
FILE = TOP / "hurleyoak" / "limits.py"
# the crate, and its constants that the workbench holds inputs against
WANTED = {
    "pop_io": ("NAME_LIMIT", "VARIABLE_LIMIT", "WORKER_LIMIT", "SHARD_LIMIT", "INPUT_LIMIT"),
    "pres_ast": ("COEFFICIENT_LIMIT", "BOUND_LIMIT", "MODULUS_LIMIT", "WEIGHT_LIMIT"),
    "pres_read": ("PARENTHESIS_LIMIT", "TEXT_LIMIT"),
    "pop_leaf": (
        "STATE_LIMIT",
        "NARROW_STATE_LIMIT",
        "MOVE_LIMIT",
        "HELPER_LIMIT",
        "LEAF_LIMIT",
        "WIDE_LEAF_LIMIT",
        "ITEM_LIMIT",
        "DEPTH_LIMIT",
    ),
    "cert_base": (
        "LAYER_LIMIT",
        "NODE_LIMIT",
        "FACT_LIMIT",
        "TERM_LIMIT",
        "SIZE_LIMIT",
        "INDEX_COUNT",
        "STATE_INDEX_COUNT",
        "SET_LIMIT",
    ),
    "pop_crowd": ("AGENT_LEAST", "AGENT_LIMIT"),
    "run_spec": ("TURN_LIMIT", "MEETING_LIMIT", "SEED_LIMIT", "WATCHED_WORKERS"),
    "pop_words": ("DEMO_LIMIT",),
}
CONSTANT = re.compile(r"((?:^/// .*\n)+)^pub const ([A-Z_]+): \w+ = ([0-9_]+(?: << [0-9]+)?);", re.MULTILINE)
PAGE = TOP / "docs" / "reference" / "limits.md"
# the crates whose limits stand on the page alone
TOLD = ("cert_layers", "cert_goals", "pop_settle", "run_picks", "comp_threshold", "comp_net", "comp_counting")
LIMIT = ("The greatest", "The most", "The fewest", "How many")
HEAD = """# Limits

Each limit is one constant of a crate. `tests/limits.py --write` writes this page and hurleyoak/limits.py from the
constants and their comments, and the own checks compare both with the sources.

| Limit | Value | Constant | Crate |
|---|---|---|---|
"""


def constants(crate: str) -> dict[str, tuple[int, str]]:
    """The public constants of a crate that are plain numbers, each with its comment."""
    out: dict[str, tuple[int, str]] = {}
    for path in sorted((TOP / "crates" / crate / "src").rglob("*.rt")):
        for comment, name, value in CONSTANT.findall(path.read_text(encoding="utf-8")):
            number, _, places = value.partition(" << ")
            out[name] = int(number) << int(places or 0), " ".join(comment.replace("///", "").split())
    return out


def module() -> str:
    """The text of hurleyoak/limits.py."""
    lines = ['"""Limits of the program, as its crates have them: written by `tests/limits.py --write`."""']
    lines += ["from __future__ import annotations"]
    for crate, names in WANTED.items():
        found = constants(crate)
        lines += ["", f"# {crate}", *(f"{name} = {found[name][0]:_}" for name in names)]
    return "\n".join(lines) + "\n"


def page() -> str:
    """The text of docs/reference/limits.md."""
    rows = []
    for crate in (*WANTED, *TOLD):
        for name, (value, comment) in constants(crate).items():
            if not comment.startswith(LIMIT):
                continue
            rows.append(f"| {comment.rstrip('.')} | {value:,} | `{name}` | `{crate}` |\n")
    return HEAD + "".join(rows)


def main() -> int:
    """Writes the two files, or checks them."""
    texts = {FILE: module(), PAGE: page()}
    for path, text in texts.items():
        if "--write" in sys.argv[1:]:
            path.write_text(text, encoding="utf-8")
        elif path.read_text(encoding="utf-8") != text:
            print(f"{path.relative_to(TOP)} isn't what the crates say: tests/limits.py --write")
            return 1
    print(f"{sum(map(len, WANTED.values()))} limits are those of the crates")
    return 0


if __name__ == "__main__":
    sys.exit(main())
