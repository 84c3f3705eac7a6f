"""What `check FILE` says behind the program's line: whose word it is, in which order, and nothing that forges a line."""
from __future__ import annotations

from pathlib import Path

import pytest

from hurleyoak.engine.claims import claimed, split_shown
from hurleyoak.saying import say
from hurleyoak.show.told.certified import certified_told
from hurleyoak.show.told.stable import stable_told

from .conftest import EXAMPLES, bundle_at, needs_program
from .test_answers import pop

COUNTED = """#!/bin/sh
echo "$1" >>"$LOG"
exec "$REAL" "$@"
"""


SHOWN = [
    "predicate p",
    "variables x",
    "combine 0",
    "leaf 0",
    "computes p",
    "states A",
    "yes A",
    "no",
    "move A + A -> A + A",
]


def test_what_was_shown_stable_is_the_program_s_word() -> None:
    """Where `show` was asked; else the workbench says the predicate alone."""
    bundle = bundle_at(EXAMPLES / "stable" / "coins.json")
    told = stable_told(bundle, claimed("stable 3"), [*SHOWN, "goal true", "layer 0", "set A"], "f.pop")
    assert told[0] == "f.pop: this is what the program has shown stable:"
    assert [line.strip() for line in told if line.startswith("  ")] == ["predicate p", "yes A", "move A + A -> A + A"]
    assert any(line.startswith("at most 3 steps for each agent") for line in told)
    own = stable_told(bundle, claimed("stable 3"), [], "f.json")
    assert own[0] == "f.json: the workbench says that this was shown stable:" and own[1].startswith("  predicate ")


def test_several_leaves_are_told_apart() -> None:
    shown = "certified 5\ntame\npredicate p\nvariables x\ncombine 0 1 and\nleaf 0\ncomputes q\nleaf 1\ncomputes r\n"
    text, listing = split_shown(shown)
    assert text == "certified 5\ntame\n"
    told = certified_told(listing, "f.pop")
    assert [line.strip() for line in told[1:]] == [
        "predicate p",
        "combine 0 1 and",
        "leaf 0",
        "computes q",
        "leaf 1",
        "computes r",
    ]


@needs_program
@pytest.mark.parametrize("sign", ["\n", "\r", "\x1b[2K", "\u2028", "\x85"])
def test_a_file_name_forges_no_line(sign: str, tmp_path: Path) -> None:
    """Nor does it steer the terminal."""
    path = tmp_path / f"a.pop{sign}       predicate x < 1"
    path.write_text((EXAMPLES / "epidemic" / "epidemic.pop").read_text())
    for name in (path, path.with_name(f"gone{sign}pop: certified 1")):
        run = pop("check", str(name))
        assert sign not in run.stderr.replace("\n", "" if sign != "\n" else "\n") or sign == "\n"
        lines = run.stderr.split("\n")
        assert not any(line.startswith(("       predicate x < 1", "pop: certified")) for line in lines), run.stderr


def test_what_is_said_is_one_line_each(capsys: pytest.CaptureFixture[str]) -> None:
    say(["one\ntwo\x1b[1m", "three\ttabs"])
    assert capsys.readouterr().err == "pop: one\\x0atwo\\x1b[1m\n     three\\x09tabs\n"


@needs_program
@pytest.mark.parametrize("name", ["majority/majority.pop", "stable/coins.pop"])
def test_the_program_is_asked_once(name: str, tmp_path: Path) -> None:
    from hurleyoak.engine.program import program_path

    counted, log = tmp_path / "counted", tmp_path / "log"
    counted.write_text(COUNTED)
    counted.chmod(0o755)
    plain = pop("check", str(EXAMPLES / name))
    run = pop("check", str(EXAMPLES / name), POP_MAIN=str(counted), LOG=str(log), REAL=program_path())
    assert (run.returncode, run.stdout, run.stderr) == (plain.returncode, plain.stdout, plain.stderr)
    assert log.read_text().split() == ["show"] and claimed(run.stdout)
