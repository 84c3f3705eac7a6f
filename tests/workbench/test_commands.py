"""The commands through bin/pop: who answers, statuses, start-up."""
from __future__ import annotations

import json
import resource
import subprocess
from pathlib import Path

import pytest

from hurleyoak.engine import program
from hurleyoak.cli.table import OWN as TABLE
from hurleyoak.engine.request import PROGRAM_WORDS
from hurleyoak.proof.bundles import Bundle, bundle_of

from .conftest import EXAMPLES, TOP, bundle_at, compiled, needs_program

POP = str(TOP / "bin" / "pop")
START_SECONDS = 0.6  # some 0.15 on an idle machine


def pop(*words: str, text: str = "", folder: Path = TOP) -> "subprocess.CompletedProcess[str]":
    """Runs bin/pop."""
    return subprocess.run([POP, *words], input=text, capture_output=True, text=True, cwd=folder, check=False)


WITHOUT_FIRST = """
import hurleyoak.search.jobs as jobs
from hurleyoak.cli.commands import main
jobs._by_entries = lambda *_: False
raise SystemExit(main(["find", "--jobs", "1"]))
"""


def find_without_first(text: str) -> "subprocess.CompletedProcess[str]":
    """`find` of a text as if there were no node `first`: what it says of a candidate that it can't exclude."""
    return subprocess.run(
        ["/usr/bin/python3", "-c", WITHOUT_FIRST], cwd=TOP, input=text, capture_output=True, text=True, check=False
    )


def test_net_bundle_and_text_from_any_folder(tmp_path: Path) -> None:
    source = (EXAMPLES / "epidemic" / "epidemic.pop").read_text()
    net = pop("net", text=source, folder=tmp_path)
    assert (net.returncode, net.stderr) == (0, "")
    assert json.loads(net.stdout) == json.loads((EXAMPLES / "epidemic" / "net.json").read_text())
    assert net.stdout.count("\n") == 1
    bundle = pop("bundle", str(EXAMPLES / "epidemic" / "epidemic.pop"), folder=tmp_path)
    assert json.loads(bundle.stdout) == json.loads((EXAMPLES / "epidemic" / "bundle.json").read_text())
    text = pop("text", text=bundle.stdout, folder=tmp_path)
    assert pop("bundle", text=text.stdout).stdout == bundle.stdout
    assert pop("text", text=net.stdout).stdout in source


def test_faults_and_usage() -> None:
    bad = pop("net", text="inputs x: A\nA + A > b + b\nyes b\n")
    assert (bad.returncode, bad.stdout) == (program.REFUSED, "")
    assert (
        bad.stderr == "pop: standard input:2:7: expected `->`, found `>`\n         A + A > b + b\n               ^\n"
    )
    assert pop("net", "--odd").returncode == program.USAGE
    assert pop("net", "/nowhere").stderr == "pop: /nowhere: No such file or directory\n"
    assert "`bin/pop find` looks for" in pop("bundle", text=(EXAMPLES / "majority" / "net.json").read_text()).stderr
    warned = pop("net", text="inputs x: A\nA + A -> b + b\nA + A -> b + A\nyes b\n")
    assert warned.returncode == 0 and "hidden" in warned.stderr


def spent() -> float:
    """The processor time of all children so far, which a busy machine doesn't change."""
    used = resource.getrusage(resource.RUSAGE_CHILDREN)
    return used.ru_utime + used.ru_stime


def test_start_up_is_short() -> None:
    source = (EXAMPLES / "epidemic" / "epidemic.pop").read_text()
    best = 9.0
    for _ in range(3):
        start = spent()
        pop("net", text=source)
        best = min(best, spent() - start)
    assert best < START_SECONDS


def test_bin_pop_gives_the_program_its_own_words_alone() -> None:
    script = Path(POP).read_text()
    line = next(line for line in script.splitlines() if "in check |" in line)
    words = line.split(" in ")[1].split(")")[0].replace(" ", "").split("|")
    assert tuple(words) == PROGRAM_WORDS and not set(TABLE) & set(words)


@needs_program
def test_explain_shows_the_program_s_line_first_and_ends_with_its_status() -> None:
    for path, line, status in [
        ("majority/bundle.json", "certified 2", 0),
        ("majority/majority.pop", "certified 2", 0),
        ("rejected/wrong-trap.json", "rejected leaf 0 false 5 not-closed", 3),
    ]:
        run = pop("explain", str(EXAMPLES / path))
        assert run.stdout.startswith(f"# {line}\n") and run.returncode == status
    net = (EXAMPLES / "majority" / "net.json").read_text()
    assert pop("explain", "-", "y - x < 0", text=net).stdout.startswith("# rejected leaf 0 layers no-layer 0\n")
    assert pop("explain", "-", text=net).returncode == program.REFUSED
    assert "<!doctype html>" in pop("explain", "--html", str(EXAMPLES / "or/or.pop")).stdout


@needs_program
@pytest.mark.parametrize("word", ["and", "or"])
def test_joining(word: str) -> None:
    run = pop(word, str(EXAMPLES / "flock/flock.pop"), str(EXAMPLES / "remainder/bundle.json"))
    assert run.returncode == 0 and run.stderr == "certified 5\n"
    made = bundle_of(json.loads(run.stdout))
    assert made.net.combine == (0, 1, word)
    assert made.pred == f"x >= 3 {'&&' if word == 'and' else '||'} x + 2*y = 1 mod 3"


@needs_program
def test_negation() -> None:
    run = pop("not", str(EXAMPLES / "and/bundle.json"))
    assert run.returncode == 0 and run.stderr == "certified 5\n"
    assert json.loads(run.stdout)["net"]["combine"] == [0, 1, "and", "not"]


@needs_program
def test_joining_over_other_variables(tmp_path: Path) -> None:
    other: Bundle = compiled("vars z\nz = 1 mod 3\n")
    (tmp_path / "z.json").write_text(other.line())
    words = ["and", str(EXAMPLES / "majority/majority.pop"), str(tmp_path / "z.json")]
    refused = pop(*words)
    assert refused.returncode == program.REFUSED and "`--start z=STATE`" in refused.stderr
    run = pop(*words, "--start", "x=N0", "--start", "y=N0", "--start", "z=b")
    assert run.stderr == "certified 5\n"
    assert bundle_of(json.loads(run.stdout)).net.names == ("x", "y", "z")
    lost = pop(*words, "--start", "x=f", "--start", "y=f", "--start", "z=b")
    assert lost.returncode == program.REJECTED and lost.stdout == ""


@needs_program
def test_helpers_have_to_be_equally_many() -> None:
    run = pop("and", str(EXAMPLES / "helper/bundle.json"), str(EXAMPLES / "epidemic/bundle.json"))
    assert run.returncode == program.REFUSED and "equally many helpers" in run.stderr
    assert bundle_at(EXAMPLES / "helper/bundle.json").net.format == 2
