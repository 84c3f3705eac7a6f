"""The packages stand on each other in one order: no module imports from a package above its own."""
from __future__ import annotations

import ast
from pathlib import Path
from typing import Iterator

import pytest

from .conftest import TOP

PACKAGE = TOP / "hurleyoak"
# from below: a module may import from its own package and from those before it
ORDER = (
    "protocol",
    "proof",
    "compiler",
    "text",
    "engine",
    "search",
    "simulation",
    "chain",
    "show",
    "library",
    "building",
    "serve",
    "cli",
)
BASE = ("limits", "version", "statuses", "faults", "saying", "wholes", "streams", "endings", "visible", "writing")


def imported(path: Path) -> Iterator[str]:
    """The names behind `hurleyoak.` that a module imports, wherever in it."""
    package = path.relative_to(TOP).parent.parts
    for node in ast.walk(ast.parse(path.read_text(encoding="utf-8"))):
        if not isinstance(node, ast.ImportFrom):
            continue
        base = package[: len(package) - node.level + 1] if node.level else ()
        whole = [*base, *(node.module.split(".") if node.module else [])]
        if whole[:1] == ["hurleyoak"]:
            yield from ([whole[1]] if len(whole) > 1 else [alias.name for alias in node.names])


@pytest.mark.parametrize("path", sorted(PACKAGE.rglob("*.py")), ids=lambda path: str(path.relative_to(PACKAGE)))
def test_no_import_goes_up(path: Path) -> None:
    """Whatever a module imports stands below it."""
    own = path.relative_to(PACKAGE).parts
    if own[0] in ("__main__.py", "__init__.py"):
        return
    place = ORDER.index(own[0]) if own[0] in ORDER else -1
    for name in imported(path):
        assert name in BASE or (name in ORDER and ORDER.index(name) <= place), f"{path.name} imports {name}"
