"""The page's modules as one script, for pages that stand in one file."""
from __future__ import annotations

import re
from pathlib import Path

WEB = Path(__file__).resolve().parent / "web"
_IMPORT = re.compile(r'^import \{([^}]+)\} from "\./([a-z]+)\.js";\n', re.MULTILINE)
_EXPORT = re.compile(r"^export ((?:async )?(?:function|class|const) (\w+))", re.MULTILINE)


def web_file(name: str) -> str:
    """A file of the page."""
    return (WEB / name).read_text(encoding="utf-8")


def one_script(main: str, stand_ins: dict[str, str] | None = None) -> str:
    """A module with all that it imports, each in a function of its own, those that are imported first.

    `stand_ins` names modules in whose place others stand.
    """
    other = stand_ins or {}
    made: list[str] = []
    seen: set[str] = set()

    def take(name: str) -> None:
        if name in seen:
            return
        seen.add(name)
        text = web_file(f"{name}.js")
        for _, needed in _IMPORT.findall(text):
            take(other.get(needed, needed))
        made.append(_wrapped(name, text, other))

    take(main)
    return "".join(made)


def _wrapped(name: str, text: str, other: dict[str, str]) -> str:
    body = _IMPORT.sub(lambda found: f"const {{{found[1]}}} = module_{other.get(found[2], found[2])};\n", text)
    names = [found[1] for found in _EXPORT.findall(body)]
    body = _EXPORT.sub(r"\1", body)
    assert not re.search(r"^(?:import|export)\b", body, re.MULTILINE), name
    return f"const module_{name} = (() => {{\n{body}return {{ {', '.join(names)} }};\n}})();\n"
