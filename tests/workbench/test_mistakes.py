"""Every mistake of the table gets its sentence, the program's line and the program's status, and never a traceback."""
from __future__ import annotations

import json
import subprocess
from pathlib import Path

import pytest

from .conftest import EXAMPLES, TOP, needs_program
from .mistakes import FILES, MISTAKES, Mistake

POP = str(TOP / "bin" / "pop")


def _texts() -> dict[str, str]:
    bundle = (EXAMPLES / "majority/bundle.json").read_text().strip()
    value = json.loads(bundle)
    journal = (EXAMPLES / "replays/held.txt").read_text()
    lines = journal.split("\n")
    return {
        "@BUNDLE": bundle,
        "@NET": (EXAMPLES / "majority/net.json").read_text().strip(),
        "@PRETTY": json.dumps(value, indent=2),
        "@RELATION": json.dumps({**value, "pred": "y <= x"}, separators=(",", ":")),
        "@TRAP": (EXAMPLES / "rejected/wrong-trap.json").read_text().strip(),
        "@LAYERS": (EXAMPLES / "rejected/layers-wakes.json").read_text().strip(),
        "@JOURNAL": journal,
        "@CRLF": journal.replace("\n", "\r\n"),
        "@CHANGED": (EXAMPLES / "replays/changed-mark.txt").read_text(),
        "@WORKER": "\n".join([*lines[:4], "1" + lines[4][1:], *lines[5:]]),
        "@ROUND": "\n".join([*lines[:6], "round 2", *lines[6:]]),
        "@WATCHED": "\n".join([*lines[:2], lines[2].replace("run ", "watch "), *lines[3:]]),
        "@SHORT": "\n".join(lines[:5]) + "\n",
        "@DEEP": "!" * 65 + "x < 1",
        "@NINE": " && ".join(["x < 1"] * 9),
        "@WIDE": " && ".join(["x < 1"] * 4 + ["x < 60"]),
    }


def filled(text: str) -> str:
    """A text with what its signs stand for."""
    for sign, meant in _texts().items():
        text = text.replace(sign, meant)
    return text


def run_mistake(mistake: Mistake, folder: Path) -> "subprocess.CompletedProcess[str]":
    """Runs bin/pop in a folder with the files; standard input is a file."""
    for word in mistake.words:
        if word in FILES:
            (folder / word).write_text(filled(FILES[word]), newline="")
    given = folder / "given"
    given.write_text(filled(mistake.given or ""), newline="")
    with open(given, encoding="utf-8") as stdin:
        return subprocess.run(
            [POP, *map(filled, mistake.words)], stdin=stdin, capture_output=True, text=True, cwd=folder, check=False
        )


@needs_program
@pytest.mark.parametrize("mistake", MISTAKES, ids=lambda m: " ".join(m.words)[:40])
def test_mistake(mistake: Mistake, tmp_path: Path) -> None:
    run = run_mistake(mistake, tmp_path)
    assert (run.returncode, run.stdout.rstrip("\n").split("\n")[-1]) == (mistake.status, mistake.line)
    assert mistake.says and mistake.says in run.stderr.replace("\n     ", " ")
    assert "Traceback" not in run.stderr
    assert not (tmp_path / "made").exists()


def test_the_table_is_long_enough() -> None:
    assert len(MISTAKES) >= 60
    assert len({(m.words, m.given) for m in MISTAKES}) == len(MISTAKES)
