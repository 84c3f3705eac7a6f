"""What benches of compiled nets share: the nets of the program and of the workbench, and what they measure of a leaf."""

from __future__ import annotations

import json
import sys

from common import PROGRAM, TOP, measured

sys.path.insert(0, TOP)

from hurleyoak.compiler.whole import compiled  # noqa: E402
from hurleyoak.proof.bundles import Bundle, bundle_of  # noqa: E402
from hurleyoak.protocol.predicatereader import read_predicate  # noqa: E402

NAMES = ["x", "y"]
PLAIN, SUCCINCT, WORKBENCH = "plain", "succinct", "workbench"


def by_program(predicate: str, maker: str) -> Bundle | None:
    """The program's net, plain or succinct; None where it makes none."""
    words = ["--succinct"] if maker == SUCCINCT else []
    text = measured([PROGRAM, "compile", *words], f"vars {' '.join(NAMES)}\n{predicate}\n".encode())[0].decode()
    return bundle_of(json.loads(text)) if text.startswith("{") else None


def net_by(maker: str, predicate: str) -> Bundle | None:
    """The net of one of the three makers."""
    if maker == WORKBENCH:
        return compiled(read_predicate(predicate, NAMES), NAMES).bundle
    return by_program(predicate, maker)


def sizes_of(bundle: Bundle) -> list[int]:
    """States, moves and helpers."""
    leaves = bundle.net.leaves
    return [sum(len(leaf.states) for leaf in leaves), sum(len(leaf.moves) for leaf in leaves), len(leaves[0].helpers)]


def told_of(predicate: str) -> str:
    """The predicate in a cell of a table."""
    return f"`{predicate}`".replace("|", "\\|")


def rows_of(head: list[str], rows: list[list[str]]) -> list[str]:
    """The lines of a table."""
    return [f"| {' | '.join(row)} |" for row in [head, ["---"] * len(head), *rows]]
