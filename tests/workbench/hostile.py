"""Texts of protocols for the tests of the page: majority, and one whose states have hostile names."""
from __future__ import annotations

from .conftest import EXAMPLES

MAJORITY = (EXAMPLES / "majority/majority.pop").read_text()
NET = MAJORITY.split("\nlayer")[0] + "\n"
# names of states may have any printed ASCII signs but blanks and `/`
HOSTILE = [
    "<script>hurt=1",
    "<img\x27onerror=hurt=1>",
    '"onclick="hurt=1',
    "<b>bold",
    "<!--",
    "${hurt=1}",
    "&lt;i&gt;",
    "__proto__",
    "constructor",
]


def hostile_text() -> str:
    """A protocol whose states have the names."""
    names = ['"' + name.replace("\\", "\\\\").replace('"', '\\"') + '"' for name in HOSTILE]
    moves = "\n".join(f"{a} + {b} -> {b} + {b}" for a, b in zip(names, names[1:]))
    return (
        f'# <script>hurt=1</script>\nleaf "<b>leaf"\ninputs x: {names[0]}  y: {names[1]}\n{moves}\nyes'
        f" {names[-1]}\ncomputes x >= 1\n"
    )
