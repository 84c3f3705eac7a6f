"""Files and predicates as arguments: the program gets the same bytes as over standard input, and says the same."""
from __future__ import annotations

import json
import random
import subprocess
from pathlib import Path
from typing import Callable

import pytest

from hurleyoak.engine import program
from hurleyoak.show.ending import undecided_told
from hurleyoak.engine.inputs import cut_json
from hurleyoak.protocol.predicates import PredicateFault
from hurleyoak.text.relaxed import in_form, read_form
from hurleyoak.protocol.predicatereader import read_predicate
from hurleyoak.protocol.predicates import value_at

from .conftest import EXAMPLES, TOP, needs_program
from .mistakes import MISTAKES
from .test_mistakes import filled

POP = str(TOP / "bin" / "pop")
MAJORITY = EXAMPLES / "majority"
READ: list[tuple[str, str, Callable[[int, int], bool]]] = [
    ("x >= y", "x - y >= 0", lambda x, y: x >= y),
    ("3 <= x", "x >= 3", lambda x, y: x >= 3),
    ("x == 3", "x = 3", lambda x, y: x == 3),
    ("x % 2 = 0", "x = 0 mod 2", lambda x, y: x % 2 == 0),
    ("x mod 3 != 1", "x != 1 mod 3", lambda x, y: x % 3 != 1),
    ("x = y (mod 4)", "x - y = 0 mod 4", lambda x, y: (x - y) % 4 == 0),
    ("2x + 1 < y - 3", "2*x - y < -4", lambda x, y: 2 * x + 1 < y - 3),
    ("2*(x - y) > -3", "2*x - 2*y > -3", lambda x, y: 2 * (x - y) > -3),
    ("1 < x <= 5", "(x > 1 && x <= 5)", lambda x, y: 1 < x <= 5),
    ("x ≥ 3 and not y == 2", "x >= 3 && !(y = 2)", lambda x, y: x >= 3 and y != 2),
    ("x <> 2 or (y >= 1 & x = 0)", "x != 2 || (y >= 1 && x = 0)", lambda x, y: x != 2 or y >= 1 and x == 0),
    ("x - x < 1", "x - x < 1", lambda x, y: True),
    ("(x + y) % 5 == 4", "x + y = 4 mod 5", lambda x, y: (x + y) % 5 == 4),
    ("0 > y - x", "y - x < 0", lambda x, y: y < x),
]


def pop(*words: str, text: str = "", folder: Path = TOP) -> "subprocess.CompletedProcess[str]":
    """Runs bin/pop."""
    return subprocess.run([POP, *words], input=text, capture_output=True, text=True, cwd=folder, check=False)


@pytest.mark.parametrize("text, form, meant", READ, ids=[row[0] for row in READ])
def test_comparisons_are_read(text: str, form: str, meant: Callable[[int, int], bool]) -> None:
    assert in_form(text, ["x", "y"])[0] == form
    tree = read_predicate(form, ["x", "y"])
    for x in range(9):
        for y in range(9):
            assert value_at(tree, [x, y]) == meant(x, y)


@pytest.mark.parametrize("sign", ["=>", "->", "⇒", "→", "<=>", "<->", "⇔"])
@pytest.mark.parametrize("lead", ["x >= 1", "(x >= 1)", "x = 1 mod 2", "!(x < 1)", "x"])
def test_an_arrow_is_no_comparison(sign: str, lead: str) -> None:
    """`x >= 1 => y >= 1` was meant as "if .. then", and is no chain: the sentence says how that is written."""
    text = f"{lead} {sign} y >= 1"
    assert in_form(text, ["x", "y"])[0] == text
    with pytest.raises(PredicateFault) as caught:
        read_form(text, ["x", "y"])
    assert f"`A {sign} B` is written `" in caught.value.told and "!(A)" in caught.value.told


def test_what_is_in_form_is_left_alone() -> None:
    for text in ("x - y < 3 || x + y = 1 mod 3", "and < 3 && or = 2", " x\t<3 ", "x < 3 and", "z", ""):
        assert in_form(text)[0] == text
    assert in_form("y - x < 3")[1] == ["y", "x"]


def test_a_malformed_text_stays_malformed_on_one_line() -> None:
    for text in ('{"a":"b\nc"}', '{"a":1,\n}', "[1\n2]", '{"a"\n:"\n"}'):
        line, _, value = cut_json(text)
        assert value is None and "\n" not in line
        with pytest.raises(ValueError):
            json.loads(line)
    line, behind, value = cut_json('{\n  "a b": [1,\n 2]\n}\ncrowd x=1\n')
    assert (json.loads(line), behind, value) == ({"a b": [1, 2]}, ["crowd x=1"], {"a b": [1, 2]})


@needs_program
@pytest.mark.parametrize("command", ["check", "show", "play", "explain", "find"])
@pytest.mark.parametrize("escape", ["\\ud800", "\\udc80", "\\udfff\\ud800"])
def test_a_lone_surrogate_is_refused(command: str, escape: str, tmp_path: Path) -> None:
    """It is no character, and JSON may have it as an escape."""
    file = tmp_path / "odd.json"
    bundle = json.loads((MAJORITY / "bundle.json").read_text())
    bundle["net"]["leaves"][0]["moves"][0][3] = "?"
    file.write_text(json.dumps(bundle).replace('"?"', f'"{escape}"'))
    run = subprocess.run([POP, command, str(file)], input="", capture_output=True, text=True, check=False)
    assert run.returncode == program.REFUSED and "Traceback" not in run.stderr


@needs_program
def test_a_file_gives_what_standard_input_gives(tmp_path: Path) -> None:
    bundle = (MAJORITY / "bundle.json").read_text()
    pretty = tmp_path / "pretty.json"
    pretty.write_text("\ufeff" + json.dumps(json.loads(bundle), indent=2).replace("\n", "\r\n"), newline="")
    crowd = "crowd x=12 y=7"
    for words in (["run", "--seed", "3"], ["settle"]):
        wanted = program.ask(words, f"{bundle}{crowd}\n")
        for file in (MAJORITY / "bundle.json", pretty, MAJORITY / "majority.pop"):
            run = pop(words[0], str(file), "x=12", "y=7", *words[1:])
            assert run.returncode == wanted.status
            assert run.stdout.split("\n")[-9:] == wanted.text.split("\n")[-9:]
    assert (
        pop("run", str(MAJORITY / "bundle.json"), "x=12", "y=7").stdout
        == program.ask(["run"], f"{bundle}{crowd}\n").text
    )
    assert "CR and LF" in pop("check", str(pretty)).stderr
    played = (MAJORITY / "play.expected").read_text()
    assert pop("play", str(MAJORITY / "play.txt")).stdout == played
    assert (
        pop("play", str(MAJORITY / "bundle.json"), "x=2 y=1", "0,2", "1 2").stdout
        == program.ask(["play"], (MAJORITY / "net.json").read_text() + "crowd x=2 y=1\n0 2\n1 2\n").text
    )


@needs_program
def test_predicates_as_arguments(tmp_path: Path) -> None:
    assert pop("eval", "x - y < 3", "x=2").stdout == "true\n"
    read = pop("eval", "x >= y", "x=2", "y=3")
    assert (read.stdout, read.stderr) == ("false\n", "pop: the predicate was read as: x - y >= 0\n")
    assert pop("eval", str(MAJORITY / "majority.pop"), "x=2", "y=1").stdout == "true\n"
    assert pop("eval", str(MAJORITY / "bundle.json"), "x=1", "y=1").stdout == "false\n"
    wanted = program.ask(["compile"], "vars y x\ny - x < 2\n").text
    assert pop("compile", "y - x < 2", "--plain").stdout == wanted
    made = tmp_path / "made.json"
    run = pop("compile", "y - x < 2", "--plain", "-o", str(made))
    assert (run.returncode, run.stdout, made.read_text()) == (0, "", wanted)
    assert pop("check", "made.json", folder=tmp_path).stdout.startswith("certified")
    failed = pop("compile", "y - x < 200", "--plain", "-o", str(tmp_path / "none.json"))
    assert failed.returncode == program.REFUSED and sorted(p.name for p in tmp_path.iterdir()) == ["made.json"]
    assert pop("compile", "x < 1", "-o", str(tmp_path / "no" / "made.json")).returncode == program.WRITE_FAULT


@needs_program
def test_undecided_tells_the_agents_states() -> None:
    run = pop("run", str(MAJORITY / "majority.pop"), "x=30", "y=10", "--turns", "100")
    assert run.returncode == program.UNDECIDED and run.stdout.endswith("undecided 0 7\n")
    assert (
        "agent 0 is in `A` and agent 7 in `b`" in run.stderr
        and "the last change was 4 meetings ago, of 100" in run.stderr
    )
    lines = run.stdout.split("\n")
    changed = [line.removesuffix(" *") if line.endswith(" *") else line for line in lines]
    assert undecided_told(lines[0], lines[1], "\n".join(changed).encode()) == []
    helped = pop("run", str(EXAMPLES / "and/bundle.json"), "x=20", "y=10", "--turns", "5")
    assert helped.returncode == program.UNDECIDED and "/" in helped.stderr


@needs_program
def test_every_undecided_run_is_understood() -> None:
    dice = random.Random(5)
    for name in ("helper", "or", "flock", "threshold", "exactly-one"):
        counts = [f"{v}={dice.randint(3, 20)}" for v in json.loads((EXAMPLES / name / "net.json").read_text())["vars"]]
        run = pop(
            "run",
            str(EXAMPLES / name / "bundle.json"),
            *counts,
            "--turns",
            str(dice.randint(0, 9)),
            "--seed",
            str(dice.randint(0, 99)),
        )
        assert run.returncode in (program.DONE, program.UNDECIDED)
        assert (
            run.returncode == program.DONE
            or "before the crowd's end" in run.stderr
            and "would change that" in run.stderr
        ), run.stderr


@needs_program
@pytest.mark.parametrize(
    "words, given",
    [
        (["check", str(MAJORITY / "bundle.json")], None),
        (["check"], MAJORITY / "bundle.json"),
        (["text", str(MAJORITY / "bundle.json")], None),
    ],
)
def test_a_full_disk(words: list[str], given: Path | None) -> None:
    with open(given or "/dev/null", encoding="utf-8") as stdin, open("/dev/full", "w", encoding="utf-8") as full:
        run = subprocess.run([POP, *words], stdin=stdin, stdout=full, stderr=subprocess.PIPE, text=True, check=False)
    assert (
        run.returncode == program.WRITE_FAULT
        and "pop: writing failed: " in run.stderr
        and "Traceback" not in run.stderr
    )


@pytest.mark.parametrize("status", range(1, 9))
def test_every_status_is_told_whoever_asks(status: int, tmp_path: Path, monkeypatch: pytest.MonkeyPatch) -> None:
    fake = tmp_path / "program"
    fake.write_text(f"#!/bin/sh\ncat >/dev/null\nexit {status}\n")
    fake.chmod(0o755)
    monkeypatch.setenv(program.VARIABLE, str(fake))
    for words in (["check"], ["check", str(MAJORITY / "bundle.json")], ["run", str(MAJORITY / "bundle.json"), "x=3"]):
        run = pop(*words)
        assert run.returncode == status and run.stderr.startswith("pop: ") and "Traceback" not in run.stderr


def test_no_input_gives_a_traceback(tmp_path: Path) -> None:
    deep = {
        "deep.json": "[" * 100_000,
        "deep.pop": "combine " + "(" * 5000 + "a\nleaf a\ninputs x: A\nyes A\n",
        "bytes.pop": "inputs x\udcff: A\n",
        "none.json": "",
    }
    for name, text in deep.items():
        (tmp_path / name).write_bytes(text.encode(errors="surrogateescape"))
        for word in ("net", "bundle", "text"):
            run = pop(word, name, folder=tmp_path)
            assert run.returncode == program.REFUSED and "Traceback" not in run.stderr and run.stderr, (word, name)


GIVEN = [(list(m.words), filled(m.given)) for m in MISTAKES if m.given is not None] + [
    ([], ""),
    (["check"], (MAJORITY / "bundle.json").read_text()),
    (["play"], (MAJORITY / "play.txt").read_text()),
    (["run", "--turns", "2"], (MAJORITY / "bundle.json").read_text() + "crowd x=2 y=1\n"),
    (["settle"], (MAJORITY / "bundle.json").read_text() + "crowd x=20 y=10"),
    (["compile", "--flocks"], "vars x\nx >= 64"),
    (["eval"], "vars x y\n2*x - y < 5 && x + y = 1 mod 3\ncrowd x=3 y=1\n"),
    (["replay"], (EXAMPLES / "replays/changed-mark.txt").read_text()),
]


@needs_program
@pytest.mark.parametrize("words, text", GIVEN, ids=[" ".join(words) or "no words" for words, _ in GIVEN])
def test_the_program_s_own_bytes_and_status_are_unchanged(words: list[str], text: str, tmp_path: Path) -> None:
    data = text.encode()
    wanted = subprocess.run([program.program_path(), *words], input=data, capture_output=True, check=False)
    piped = subprocess.run([POP, *words], input=data, capture_output=True, check=False)
    (tmp_path / "given").write_bytes(data)
    with open(tmp_path / "given", "rb") as stdin:
        read = subprocess.run([POP, *words], stdin=stdin, capture_output=True, check=False)
    for run in (piped, read):
        assert (run.stdout, run.returncode) == (wanted.stdout, wanted.returncode)
        assert bool(run.stderr) == (run.returncode != 0) and b"Traceback" not in run.stderr


@needs_program
def test_a_hidden_move_is_told() -> None:
    run = pop("check", str(EXAMPLES / "accepted/two-moves.json"))
    assert run.stdout == "certified 2\n" and "is hidden by" in run.stderr


@needs_program
def test_out_of_memory_is_said() -> None:
    given = (MAJORITY / "bundle.json").read_text() + "crowd x=501 y=499\n"
    line = f"ulimit -v 12000; '{POP}' run --turns 1000000"
    run = subprocess.run(["sh", "-c", line], input=given, capture_output=True, text=True, check=False)
    assert run.returncode == program.NO_MEMORY and run.stdout == ""
    assert run.stderr == "pop: out of memory; nothing was printed\n"
