"""Hostile names and lines of text through the page: no script runs, and the console stays quiet. FUZZ says how
many."""
from __future__ import annotations

import os
import random
from pathlib import Path
from typing import Iterator

import pytest

from .browsing import Page
from .serving import Server

pytest.importorskip("tornado", reason="Tornado isn't installed: apt-get install python3-tornado")
if not Path("/usr/share/javascript/codemirror").is_dir():
    pytest.skip("CodeMirror isn't installed: apt-get install libjs-codemirror", allow_module_level=True)

USUAL, MOST, SHOWN = 60, 20_000, 20  # hostile names and lines, and how many of them one text shows
PART = 400  # of one test
MANY = min(MOST, int(os.environ.get("FUZZ", str(USUAL))))
SEED = int(os.environ.get("FUZZ_SEED", "2026"))
PIECES = [
    "<script>hurt=1",
    "<img\x27onerror=hurt=1>",
    '"',
    "'",
    "<!--",
    "-->",
    "${hurt=1}",
    "&lt;",
    "__proto__",
    "constructor",
    "toString",
    "\\",
    "%s",
    "javascript:hurt=1",
    "onclick=hurt=1",
    "]]>",
    "{",
    "}",
    "`",
    "a",
    "0",
]
SIGNS = "".join(map(chr, range(33, 127))).replace("/", "")


@pytest.fixture(scope="module")
def server() -> Iterator[Server]:
    """One server for all."""
    one = Server()
    yield one
    one.close()


def name(rng: random.Random) -> str:
    """A state's name, in quotes."""
    made = "".join(
        rng.choice(PIECES) if rng.random() < 0.6 else rng.choice(SIGNS) for _ in range(rng.randrange(1, 4))
    )[:32]
    return '"' + made.replace("\\", "\\\\").replace('"', '\\"') + '"'


def whole(rng: random.Random) -> str:
    """A protocol of hostile names."""
    names = list(dict.fromkeys(name(rng) for _ in range(SHOWN)))
    moves = "\n".join(f"{a} + {b} -> {b} + {b}" for a, b in zip(names, names[1:]))
    return f"# {rng.choice(PIECES)}\ninputs x: {names[0]}  y: {names[1]}\n{moves}\nyes {names[-1]}\ncomputes x >= 1\n"


def broken(rng: random.Random, made: str) -> str:
    """The same with something hostile in the midst of each line, so that its fault shows it."""
    lines = []
    for line in made.split("\n"):
        at = rng.randrange(len(line) + 1)
        lines.append(line[:at] + rng.choice([*PIECES, "\u202e", "\U0001f600", "\x00"]) + line[at + rng.randrange(9) :])
    return "\n".join(lines)


@pytest.mark.quick
@pytest.mark.parametrize("part", range(-(-MANY // PART)))
def test_hostile_texts_do_nothing(browser: Page, server: Server, part: int) -> None:
    rng = random.Random(SEED + part)
    page = browser
    page.new(server.address)
    scripts = page.js("return document.scripts.length")
    for count in range(-(-min(PART, MANY - part * PART) // SHOWN)):
        made = whole(rng)
        page.put(broken(rng, made) if count % 2 else made)
        page.tab(("play", "net", "proof", "behaviour")[count // 2 % 4])
        assert page.js("return window.hurt") is None and page.js("return Object.prototype.hurt") is None, made
        assert page.js("return document.scripts.length") == scripts, made
        assert page.js("return document.querySelectorAll('img, iframe, object, embed').length") == 0, made
    assert page.complaints() == []
