"""`import hurleyoak`: what the library gives, and that no call starts a build."""
from __future__ import annotations

import subprocess
import sys
from pathlib import Path
from typing import Callable, cast

import pytest

import hurleyoak
from hurleyoak.cli.commands.simulate import _limits
from hurleyoak.cli.table import OWN
from hurleyoak.cli.table.reading import read_words
from hurleyoak.engine import places, program
from hurleyoak.simulation.simulation import ENDLESS

from .conftest import EXAMPLES, TOP, needs_program

MAJORITY = str(EXAMPLES / "majority" / "majority.pop")
FAMILY = str(EXAMPLES / "families" / "tower.pop")
EPIDEMIC = "inputs x: I  y: S\nS + I -> I + I\nyes I\ncomputes x >= 1\n"


def test_every_name_is_there() -> None:
    """All that the package says it has."""
    for name in hurleyoak.__all__:
        assert callable(getattr(hurleyoak, name)), name
    assert dir(hurleyoak) == sorted(hurleyoak.__all__)
    with pytest.raises(AttributeError):
        getattr(hurleyoak, "nothing")


def test_texts() -> None:
    """A protocol of a text: its predicate, its net, its faults."""
    protocol = hurleyoak.Protocol.parse(EPIDEMIC)
    assert protocol.predicate == "x >= 1" and not protocol.has_proof
    assert repr(protocol) == "<Protocol of x >= 1: 2 states, without a proof>"
    assert hurleyoak.Protocol.parse(protocol.text() + "computes x >= 1\n").net == protocol.net
    assert protocol.computes("x > y").predicate == "x - y > 0"
    with pytest.raises(hurleyoak.InputFault, match="computes|expected|line"):
        hurleyoak.Protocol.parse("S + I ->\n")


def test_runs() -> None:
    """A run, its curve and its picture as HTML."""
    run = hurleyoak.load(MAJORITY).simulate(x=30, y=10)
    assert (
        run.terminal
        and run.ended == "terminal"
        and run.output is True
        and run.right
        and run.agents == 40 == sum(run.crowd.values())
    )
    assert run.parallel_time == run.meetings / 40 and "measured, not proved" in run._repr_html_()
    assert len(run.times) == len(next(iter(run.curves.values())))
    pytest.importorskip("pandas")
    assert list(run.frame().columns) == list(run.curves)


def test_many_runs() -> None:
    """Runs on one grid: each has its crowd at each time, and stays at its end."""
    made = hurleyoak.load(MAJORITY).ensemble(0.5, runs=4, x=8, y=3)
    assert len(made) == 4 == made.terminal and made.times[:3] == [0.0, 0.5, 1.0]
    assert all(len(run) == len(made.times) for runs in made.counts.values() for run in runs)
    assert made.mean("A")[0] == 8 and sum(made.mean(name)[-1] for name in made.counts) == made.agents == 11
    assert made.mean("A")[-1] == 5 and "measured, not proved" in made._repr_html_()
    short = hurleyoak.load(MAJORITY).ensemble(1, runs=2, meetings=22, x=8, y=3)
    assert short.times == [0, 1, 2]
    with pytest.raises(hurleyoak.InputFault, match="above 0"):
        hurleyoak.load(MAJORITY).ensemble(0, x=8)
    with pytest.raises(hurleyoak.InputFault, match="times of the grid"):
        hurleyoak.load(MAJORITY).ensemble(1e-9, x=8, y=3)
    pytest.importorskip("pandas")
    assert list(made.frame().columns) == list(made.counts) and len(made.frame()) == 4 * len(made.times)


def test_sweeps() -> None:
    """Sizes in step, quartiles, and wrong ends counted."""
    table = hurleyoak.load(MAJORITY).sweep(runs=3, x=[4, 8], y=2)
    assert [row["agents"] for row in table] == [6, 10] and all(row["wrong"] == 0 for row in table)
    assert len(table) == 2 and "<table>" in table._repr_html_()
    with pytest.raises(hurleyoak.InputFault, match="equally long"):
        hurleyoak.load(MAJORITY).sweep(x=[1, 2], y=[1, 2, 3])


def test_a_run_stops_after_meetings() -> None:
    """As `--until` does: a number of meetings is an end, too."""
    assert hurleyoak.load(MAJORITY).simulate(until=5, x=30, y=10).meetings == 5
    assert hurleyoak.load(MAJORITY).simulate(until="agreed", x=30, y=10).output is True


@pytest.mark.parametrize(
    "until, changes, ended",
    [
        (None, None, "terminal"),
        ("terminal", None, "terminal"),
        ("agreed", None, "agreed"),
        ("settled", None, "settled"),
        (5, None, "meetings"),
        (5.0, None, "meetings"),
        (None, 3, "changes"),
        (10**6, 3, "changes"),
    ],
)
def test_a_run_says_why_it_ended(until: str | float | None, changes: int | None, ended: str) -> None:
    """The reason is a word of the run."""
    stirring = "inputs x: A y: B\nA + A -> C + C\nC + C -> A + A\nA + B -> A + A\nC + B -> C + C\nyes A C\n"
    protocol = hurleyoak.Protocol.parse(stirring) if ended == "settled" else hurleyoak.load(MAJORITY)
    assert protocol.simulate(until=until, changes=changes, x=30, y=10).ended == ended


def test_an_end_that_is_asked_for_lifts_the_usual_limit(monkeypatch: pytest.MonkeyPatch) -> None:
    """The limit of changes is for runs of which nothing is said, by the library as on the command line."""
    monkeypatch.setattr("hurleyoak.simulation.carrying.CHANGE_LIMIT", 50)
    monkeypatch.setattr("hurleyoak.simulation.carrying.CHANGES_AN_AGENT", 1)
    protocol = hurleyoak.Protocol.parse("inputs x: A\nA + A -> B + B\nB + B -> A + A\nyes A\n")
    assert protocol.simulate(x=9).ended == "changes"
    assert protocol.simulate(until=5_000, x=9).meetings == 5_000
    asked: list[list[str]] = [["--until", "5000"], ["--until", "5000", "--changes", "30"], []]
    limits = [_limits(read_words(OWN["simulate"], words)) for words in asked]
    assert [one.most_changes(9) for one in limits] == [ENDLESS, 30, 50]


@pytest.mark.parametrize(
    "call, says",
    [
        (lambda p: p.simulate(until="never", x=2), "`until` is 'terminal'"),
        (lambda p: p.simulate(until=-1, x=2), "`until` is a whole number"),
        (lambda p: p.simulate(seed=-1, x=2), "`seed` is a whole number from 0 to 9223372036854775807"),
        (lambda p: p.simulate(seed=2**63, x=2), "`seed`"),
        (lambda p: p.simulate(seed="a", x=2), "`seed`"),
        (lambda p: p.simulate(changes=-1, x=2), "`changes`"),
        (lambda p: p.ensemble("often", x=2), "`every`"),
        (lambda p: p.ensemble(float("nan"), x=2), "`every`"),
        (lambda p: p.ensemble(1, runs=2.5, x=2), "`runs`"),
        (lambda p: p.ensemble(1, meetings=-1, x=2), "`meetings`"),
        (lambda p: p.sweep(runs=0, x=2), "`runs`"),
        (lambda p: p.sweep(x="10..100*2"), "`x` is a number of agents or a list"),
        (lambda p: p.sweep(x=2.5), "`x` is a number of agents or a list"),
    ],
)
def test_arguments(call: Callable[[hurleyoak.Protocol], object], says: str) -> None:
    """What is asked for out of its limits is a fault of the library's own kind, that names the argument."""
    with pytest.raises(hurleyoak.InputFault) as fault:
        call(hurleyoak.Protocol.parse(EPIDEMIC))
    assert says in str(fault.value)


def test_what_a_file_assumes() -> None:
    """As the commands: a run of an input that is left out is refused, and a sweep passes it over."""
    moves = "A + B -> a + b\nA + b -> A + a\nB + a -> B + b\n"
    protocol = hurleyoak.Protocol.parse(f"inputs x: A y: B\n{moves}yes A a\ncomputes x > y\nassume x != y\n")
    with pytest.raises(hurleyoak.InputFault, match="assumes: x - y != 0"):
        protocol.simulate(x=3, y=3)
    assert [row["x"] for row in protocol.sweep(runs=2, x=[3, 9], y=3)] == [9]


def test_a_family_is_refused() -> None:
    """It is many protocols, and the fault says how one of them is written."""
    with pytest.raises(hurleyoak.InputFault, match="a family of 11 protocols: `bin/pop text .* --with c=2`"):
        hurleyoak.load(FAMILY)


def test_frames_ask_for_pandas(monkeypatch: pytest.MonkeyPatch) -> None:
    """Where it isn't installed, the fault names the package."""
    monkeypatch.setitem(cast("dict[str, object]", sys.modules), "pandas", None)
    with pytest.raises(hurleyoak.InputFault, match="apt-get install python3-pandas"):
        hurleyoak.load(MAJORITY).simulate(x=3, y=1).frame()


@needs_program
@pytest.mark.parametrize(
    "text, says", [("x -", "expected a variable"), ("x = 1 mod 300", "a modulus is 2 to 200"), ("", "has no variable")]
)
def test_compile_says_what_is_wrong(text: str, says: str) -> None:
    """The sentence too, and not the program's line alone."""
    with pytest.raises(hurleyoak.InputFault, match=says):
        hurleyoak.compile(text)


@needs_program
def test_agents_of_a_search() -> None:
    """Fewer than a crowd has are refused."""
    with pytest.raises(hurleyoak.InputFault, match="`agents` is a whole number from 2"):
        hurleyoak.Protocol.parse(EPIDEMIC).refute(agents=1)


@needs_program
def test_what_the_program_says() -> None:
    """Verdicts, a found proof, a counterexample, a compiled predicate."""
    verdict = hurleyoak.check(MAJORITY)
    assert verdict and verdict.bound == 2 and repr(verdict) == "certified 2"
    found = hurleyoak.Protocol.parse(EPIDEMIC).find()
    assert found and found.protocol is not None and found.protocol.check().certified
    wrong = hurleyoak.Protocol.parse(EPIDEMIC.replace("x >= 1", "x >= 2")).refute(agents=3)
    assert wrong is not None and wrong.counts["x"] == 1
    made = hurleyoak.compile("x - y < 1000")
    assert made.check().bound == 25 and made.check().tame and "helpers" in repr(made)
    assert hurleyoak.compile("x >= 1000", helpers=False).net.leaves[0].helpers == ()
    with pytest.raises(hurleyoak.InputFault):
        hurleyoak.compile("x - y < 1000", helpers=False)
    quick = hurleyoak.compile("3x - y < 100", way="quick")
    assert quick.check().tame and quick.simulate(x=30, y=10).right
    assert hurleyoak.compile("x >= 8", way="plain").net.leaves != hurleyoak.compile("x >= 8", way="flocks").net.leaves
    with pytest.raises(hurleyoak.InputFault, match="`way` is one of smallest, "):
        hurleyoak.compile("x >= 9", way="fast")
    with pytest.raises(hurleyoak.InputFault, match="for succinct and quick nets"):
        hurleyoak.compile("x >= 9", helpers=False, way="plain")
    assert hurleyoak.explain(MAJORITY).startswith("#")


def test_no_call_starts_a_build(monkeypatch: pytest.MonkeyPatch, tmp_path: Path) -> None:
    """Where the program isn't there, NotBuilt says what to do."""
    monkeypatch.delenv(program.VARIABLE, raising=False)
    for module in (program, places):
        monkeypatch.setattr(module, "BUILT", tmp_path / "nothing")
        monkeypatch.setattr(module, "STANDING", tmp_path / "nothing")
    calls: list[Callable[[], object]] = [
        lambda: hurleyoak.check(MAJORITY),
        lambda: hurleyoak.compile("x < 1"),
        lambda: hurleyoak.find(MAJORITY),
    ]
    for call in calls:
        with pytest.raises(hurleyoak.NotBuilt, match="bin/pop build"):
            call()


def test_the_command_line_starts_without_the_library() -> None:
    """`import hurleyoak` alone imports nothing of weight."""
    words = (
        "import sys, hurleyoak; print(sorted(m for m in sys.modules if m.startswith(('hurleyoak.', 'numpy',"
        " 'scipy'))))"
    )
    run = subprocess.run(["/usr/bin/python3", "-c", words], capture_output=True, text=True, cwd=TOP, check=True)
    assert run.stdout == "[]\n"
