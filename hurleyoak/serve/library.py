"""The files that the page is made of, and the examples of its menu."""
from __future__ import annotations

from pathlib import Path

from ..faults import InputFault
from ..engine.places import TOP

STATIC = Path(__file__).resolve().parents[1] / "show" / "web"
TYPES = {".html": "text/html", ".js": "text/javascript", ".css": "text/css", ".svg": "image/svg+xml"}
EDITOR = Path("/usr/share/javascript/codemirror")
EDITOR_FILES = (
    "codemirror.js",
    "codemirror.css",
    "addon/edit/matchbrackets.js",
    "addon/edit/closebrackets.js",
    "addon/comment/comment.js",
    "addon/dialog/dialog.js",
    "addon/dialog/dialog.css",
    "addon/search/searchcursor.js",
    "addon/search/search.js",
    "addon/selection/active-line.js",
    "addon/hint/show-hint.js",
    "addon/hint/show-hint.css",
)
EXAMPLES = TOP / "examples"
GROUPS = ("examples", "families", "succinct", "found")  # in the order of the menu


def needs_editor() -> None:
    """An InputFault that says what to install, where the editor's files aren't there."""
    if not all((EDITOR / name).is_file() for name in EDITOR_FILES):
        raise InputFault("pop serve needs the editor CodeMirror: apt-get install libjs-codemirror")


def page_files() -> dict[str, Path]:
    """Each address that is answered with a file: these alone are read, whatever a request says."""
    out = {
        f"/static/{path.name}": path
        for path in sorted(STATIC.iterdir())
        if path.suffix in TYPES and path.name != "index.html"
    }
    out["/"] = STATIC / "index.html"
    out["/favicon.ico"] = STATIC / "icon.svg"
    out.update({f"/editor/{name}": EDITOR / name for name in EDITOR_FILES})
    return out


def _about(path: Path) -> str:
    """The comment at the start of an example, up to its first full stop."""
    words: list[str] = []
    for line in path.read_text(encoding="utf-8").splitlines():
        if not line.startswith("#"):
            break
        words.append(line.lstrip("# ").strip())
    text = " ".join(words)
    return text.removeprefix(f"{path.stem}: ").split(". ")[0].rstrip(".")


def _group(path: Path) -> str:
    """What an example is of: its folder, or `examples` where it has one of its own."""
    folder = path.parent.name
    return folder if folder in GROUPS else GROUPS[0]


def examples() -> dict[str, Path]:
    """The examples by their names, those with folders of their own first; none where they aren't installed."""
    paths = sorted(EXAMPLES.glob("*/*.pop"), key=lambda path: (GROUPS.index(_group(path)), path.stem))
    return {path.stem if _group(path) == GROUPS[0] else f"{path.parent.name}/{path.stem}": path for path in paths}


def examples_told() -> list[dict[str, str]]:
    """The examples for the menu."""
    return [{"name": name, "about": _about(path), "group": _group(path)} for name, path in examples().items()]
