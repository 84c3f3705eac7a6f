"""Runs the code cells of a notebook as Jupyter does, without Jupyter: /usr/bin/python3 tests/notebook.py FILE
[--write]"""
from __future__ import annotations

import ast
import io
import json
import sys
from contextlib import redirect_stdout
from pathlib import Path
from typing import Any

TOP = Path(__file__).resolve().parents[1]


def cell_output(source: str, space: dict[str, Any]) -> str:
    """What a cell prints, and the value of its last line if that is an expression."""
    tree = ast.parse(source)
    last = tree.body.pop() if tree.body and isinstance(tree.body[-1], ast.Expr) else None
    out = io.StringIO()
    with redirect_stdout(out):
        exec(compile(tree, "cell", "exec"), space)
        value = (
            eval(compile(ast.Expression(last.value), "cell", "eval"), space) if isinstance(last, ast.Expr) else None
        )
    return out.getvalue() + ("" if value is None else f"{value!r}\n")


def stored(cell: dict[str, Any]) -> str:
    """The output that is kept in a cell."""
    out = ""
    for one in cell["outputs"]:
        lines = one["text"] if "text" in one else one["data"]["text/plain"]
        out += "".join(lines)
    return out


def outputs(path: Path) -> list[tuple[str, str, str]]:
    """Of each code cell its source, what is kept, and what it gives now."""
    space: dict[str, Any] = {"__name__": "__main__"}
    found = []
    for cell in json.loads(path.read_text())["cells"]:
        if cell["cell_type"] == "code":
            source = "".join(cell["source"])
            found.append((source, stored(cell), cell_output(source, space)))
    return found


def write(path: Path) -> None:
    """Keeps in each cell what it gives now."""
    book = json.loads(path.read_text())
    made = iter(outputs(path))
    for count, cell in enumerate((cell for cell in book["cells"] if cell["cell_type"] == "code"), 1):
        _, _, text = next(made)
        cell["execution_count"] = count
        cell["outputs"] = (
            [{"name": "stdout", "output_type": "stream", "text": text.splitlines(keepends=True)}] if text else []
        )
    path.write_text(json.dumps(book, indent=1, ensure_ascii=False) + "\n")


if __name__ == "__main__":
    sys.path.insert(0, str(TOP))
    if "--write" in sys.argv:
        write(Path(sys.argv[1]))
    for source, _, text in outputs(Path(sys.argv[1])):
        print(source, text, sep="\n", end="\n\n")
