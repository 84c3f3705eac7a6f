"""Answers that were wrong once: what each is now."""
from __future__ import annotations

import json
import os
import re
import stat
import subprocess
from pathlib import Path

import pytest

from hurleyoak.engine import program
from hurleyoak.simulation.carrying import Limits, carry_out
from hurleyoak.simulation.simulation import Simulation
from hurleyoak.faults import InputFault
from hurleyoak.text.files import load
from hurleyoak.text.relaxed import hint, in_form, read_form
from hurleyoak.protocol.predicates import PredicateFault

from .conftest import EXAMPLES, TOP

POP = str(TOP / "bin" / "pop")
# a program that says what is written in the file beside it, by the word that it is asked
STAND_IN = """#!/bin/sh
read -r line
case $1 in
    signal) kill -KILL $$ ;;
    check | show) [ -e "$0.dies" ] && kill -SEGV $$; [ -e "$0.rejects" ] && { echo "rejected predicate"; exit 3; }; echo "certified 2" ;;
    *) echo "words: $*" ;;
esac
"""


def pop(*words: str, text: str = "", folder: Path = TOP, **more: str) -> "subprocess.CompletedProcess[str]":
    """Runs bin/pop."""
    return subprocess.run(
        [POP, *words], input=text, capture_output=True, text=True, cwd=folder, check=False, env={**os.environ, **more}
    )


@pytest.fixture()
def stand_in(tmp_path: Path) -> Path:
    """A program in the place of the proved one."""
    path = tmp_path / "stand-in"
    path.write_text(STAND_IN)
    path.chmod(0o755)
    return path


def make(*words: str, **more: str) -> "subprocess.CompletedProcess[str]":
    """Runs make in the repository."""
    return subprocess.run(
        ["make", "-C", str(TOP), *words], capture_output=True, text=True, check=False, env={**os.environ, **more}
    )


def test_install_into_a_path_with_blanks_deletes_nothing_else(tmp_path: Path, stand_in: Path) -> None:
    beside = tmp_path / "my" / "kept.txt"
    beside.parent.mkdir()
    beside.write_text("kept")
    prefix = tmp_path / "my pre'fix"
    run = subprocess.run(
        ["sh", "-c", 'umask 077; exec make -C "$0" install "PREFIX=$1"', str(TOP), str(prefix)],
        check=False,
        capture_output=True,
        text=True,
        env={**os.environ, "POP_MAIN": str(stand_in)},
    )
    assert run.returncode == 0, run.stderr
    assert beside.read_text() == "kept"
    home = prefix / "lib" / "hurleyoak"
    assert (home / "crates/pop_main/out/pop_main").read_text() == STAND_IN
    for path in [p for p in home.rglob("*")] + [home]:
        assert path.stat().st_mode & (stat.S_IROTH | stat.S_IRGRP), path
    assert os.access(home / "bin" / "recheck", os.X_OK)
    assert (home / "docs" / "reference" / "formats.md").exists() and (
        home / "examples" / "majority" / "majority.pop"
    ).exists()
    told = (home / "VERSION").read_text()
    assert told.startswith("hurleyoak ") and "SHA-256" in told and "POP_MAIN" not in told
    answer = subprocess.run([prefix / "bin" / "pop", "--version"], capture_output=True, text=True, check=False)
    assert answer.stdout.startswith(told)
    assert make("uninstall", f"PREFIX={prefix}").returncode == 0
    assert not [p for p in prefix.rglob("*") if p.is_file()] and beside.exists()


def test_a_relative_prefix_and_a_folder_of_others_are_refused(tmp_path: Path, stand_in: Path) -> None:
    run = make("install", "PREFIX=some where", POP_MAIN=str(stand_in))
    assert run.returncode != 0 and "PREFIX is a whole path" in run.stderr
    mine = tmp_path / "lib" / "hurleyoak" / "mine.txt"
    mine.parent.mkdir(parents=True)
    mine.write_text("mine")
    assert make("install", f"PREFIX={tmp_path}", POP_MAIN=str(stand_in)).returncode != 0
    assert mine.exists()


READ = [
    ("-x % 3 = 1", "-x = 1 mod 3"),
    ("x mod 3 = 1", "x = 1 mod 3"),
    ("(x - y) % 3 = 1", "x - y = 1 mod 3"),
    ("(x - y) mod 3 = 1", "x - y = 1 mod 3"),
    ("x = y mod 3 && x >= y", "x - y = 0 mod 3 && x - y >= 0"),
    ("(x = y mod 3) or x > y", "(x - y = 0 mod 3) || x - y > 0"),
    ("2x >= x + y", "x - y >= 0"),
    ("3x + 2y >= 100", "3*x + 2*y >= 100"),
    ("2(x + y) >= 3z", "2*x + 2*y - 3*z >= 0"),
    ("5a + 12bb = 1 mod 7", "5*a + 12*bb = 1 mod 7"),
    ("x - x + y < 1 + 1", "0*x + y < 2"),
]
REFUSED = [
    ("x = y % 3", "`%` belongs on the left"),
    ("x = 5 % 3", "`%` belongs on the left"),
    ("4 = x % 3", "`%` belongs on the left"),
    ("x - y % 3 = 1", "takes one term"),
    ("x - y mod 3 = 1", "takes one term"),
    ("x < y mod 3", "a remainder is compared by"),
    ("x = y mod 3 < 2", "after a congruence"),
    ("x = 0 mod 2 = y", "after a congruence"),
    ("x % 3 = 1 < y", "after a congruence"),
    ("x = y = 1 mod 3", "no link of a chain"),
    ("x < 1e5", "`1e5` is no number"),
    ("x >= 1_000", "`1_000` is no number"),
    ("x < 10k", "`10k` is no number"),
    ("3x < 2M", "`2M` is no number"),
    ("3x < 0b1", "`0b1` is no number"),
    ("x < 0x10", "`0x10` is no number"),
    ("1e5 <= x && x < 1e5", "`1e5` is no number"),
    ("x = 1 mod5", "put a blank between"),
    ("x = 3mod5", "put a blank between"),
    ("x mod5 = 1", "put a blank between"),
    ("x % 201 = 1", "a modulus is 2 to 200"),
    ("x mod x = 1", "a modulus is 2 to 200"),
    ("x = y (mod 0)", "a modulus is 2 to 200"),
    ("true", "`true` is no predicate"),
    ("false || x < 3", "`false` is no predicate"),
]


@pytest.mark.parametrize("text, form", READ, ids=[row[0] for row in READ])
def test_what_is_clear_is_read(text: str, form: str) -> None:
    assert in_form(text)[0] == form and read_form(text)[0] == form


@pytest.mark.parametrize("text, told", REFUSED, ids=[row[0] for row in REFUSED])
def test_what_is_not_clear_is_refused_with_a_sentence(text: str, told: str) -> None:
    assert in_form(text)[0] == text and told in hint(text)
    with pytest.raises(PredicateFault):
        read_form(text)
    with pytest.raises(PredicateFault):
        read_form(text, ["x", "y"])


def test_numbers_before_declared_names_are_products() -> None:
    assert in_form("2x >= 3y", ["x", "y"])[0] == "2*x - 3*y >= 0"
    assert in_form("2x >= 3y", None, ["x", "y"])[0] == "2*x - 3*y >= 0"


MISSED = "inputs x: A\nA + A -> b + b\nb + A -> b + b\nyes b\ncomputes x >= 1\npredicate x >= 5\n"
LEAVES = """combine P || Q
leaf P
inputs x: A
A + A -> b + b
b + * -> b + b
yes b
computes {}
leaf Q
inputs x: A
yes A
"""


def test_a_net_is_held_against_its_whole_predicate() -> None:
    from hurleyoak.search.explore import explore
    from hurleyoak.search.flaws import Flaw
    from hurleyoak.search.whole import system_of

    loaded = load(MISSED, "f")
    flaw, _ = explore(system_of(loaded.net), loaded.whole_tree(), 5, 10.0)
    assert isinstance(flaw, Flaw) and flaw.counts == (2,)
    # the leaf P misses `x >= 3`, and the net says true, as it should
    loaded = load(LEAVES.format("x >= 3") + "computes x < 3\n", "f")
    flaw, tried = explore(system_of(loaded.net), loaded.whole_tree(), 5, 10.0)
    assert flaw is None and tried.agents == 5


def test_nets_whose_shape_is_not_the_predicates_are_refuted() -> None:
    run = pop(
        "refute",
        "--agents",
        "4",
        text=LEAVES.replace("computes {}\n", "") + "predicate x >= 0\n",
        POP_MAIN="/bin/false",
    )
    assert run.stdout.startswith("no flaw: all inputs of up to 4 agents") and run.returncode == program.DONE
    with pytest.raises(InputFault, match="differ in shape"):
        load(LEAVES.replace("computes {}\n", "") + "predicate x >= 0\n", "f").part_trees()


def test_a_leaf_that_misses_its_predicate_is_no_flaw() -> None:
    pytest.importorskip("scipy")
    run = pop("find", text=LEAVES.format("x >= 3") + "computes x < 3\n", POP_MAIN="/bin/false")
    assert run.returncode == program.UNDECIDED and "misses its own predicate" in run.stderr


COIN = "inputs x: A  y: B\nA + B -> A + A\nA + B -> B + B\nyes A\n"


def test_a_coin_is_tossed() -> None:
    net = load(COIN, "f").net
    ends = []
    for seed in range(200):
        run = Simulation(net, (1, 1), seed)
        carry_out(run, Limits(), None)
        ends.append(run.output)
    assert 60 < ends.count(True) < 140
    told = pop("simulate", "-", "x=3", "y=3", text=COIN, POP_MAIN="/bin/false")
    assert "take either by equal chance" in told.stderr


def test_approximate_majority_is_the_one_of_its_source() -> None:
    net = load((EXAMPLES / "found" / "approximate-majority.pop").read_text(), "f").net
    ends = []
    for seed in range(60):
        run = Simulation(net, (20, 40), seed)
        carry_out(run, Limits(), None)
        ends.append(run.output)
    assert ends.count(False) > 50


AROUND = "inputs x: A\nA + A -> A + B\nA + B -> A + A\n{}\nyes {}\ncomputes x >= 0\n"


@pytest.mark.parametrize(
    "more, yes, told, status",
    [
        ("", "A B", "stable, but not silent", program.UNDECIDED),
        ("", "A", "the protocol is wrong, and doesn't end", program.REJECTED),
        ("B + B -> C + C", "A B", "the protocol is wrong", program.REJECTED),
    ],
)
def test_crowds_that_go_round_are_told_apart(more: str, yes: str, told: str, status: int, tmp_path: Path) -> None:
    pytest.importorskip("scipy")
    # (the first one has goals, which `find` finds)
    for words in ([] if status == program.UNDECIDED else ["find"]), ["refute", "--agents", "6"]:
        if not words:
            continue
        run = pop(*words, text=AROUND.format(more, yes), POP_MAIN="/bin/false")
        if status == program.UNDECIDED:
            assert told in run.stdout + run.stderr and run.returncode == status
        else:
            # (there is no program that plays it here, so that it isn't shown)
            assert "plays this counterexample to another end" in run.stderr


def test_a_predicate_beside_the_file_s_own() -> None:
    file = str(EXAMPLES / "majority" / "majority.pop")
    run = pop("explain", file, "x >= 2", POP_MAIN="/bin/false")
    assert run.returncode == program.REFUSED and "has a proof of its own predicate" in run.stderr
    run = pop("refute", file, "x >= y", "--agents", "3", POP_MAIN="/bin/false")
    assert "passed over" in run.stderr
    run = pop("refute", file, "x > y", "--agents", "3", POP_MAIN="/bin/false")
    assert "the predicate was read as: x - y > 0" in run.stderr


def test_a_simulation_that_was_stopped_has_not_yet_agreed() -> None:
    run = pop("simulate", str(EXAMPLES / "majority" / "majority.pop"), "x=30", "y=20", "--until", "5")
    assert "not yet agreed" in run.stdout and "they differ" not in run.stdout


def test_whole_weights_are_fractions_scaled() -> None:
    pytest.importorskip("scipy")
    from hurleyoak.search import layers as finder
    from hurleyoak.search.layers import LayerFinder
    from hurleyoak.search.limits import clock
    from hurleyoak.protocol.nets import Leaf

    chain = Leaf(("a", "b", "c"), ((0, 0, 1, 2), (1, 1, 0, 2), (2, 2, 1, 1)), (0,), (True, True, True))
    found = LayerFinder(chain, clock() + 10)
    fractions = found.weights(frozenset(chain.active))
    if fractions is not None:
        assert found.weights(frozenset(chain.active), whole=True) is not None
    old, finder.WHOLE_SECONDS = finder.WHOLE_SECONDS, 0.0
    try:
        states = tuple(f"q{i}" for i in range(40))
        moves = tuple((i, j, 0, (i + j) % 39 + 1) for i in range(1, 40) for j in range(i, 40))
        leaf = Leaf(states, moves, (1,), tuple(True for _ in states))
        whole = LayerFinder(leaf, clock() + 30).weights(frozenset(leaf.active), whole=True)
        assert whole is not None
        for t in leaf.active:
            assert sum(k * int(whole[1][q]) for q, k in leaf.change(t).items()) <= -1
    finally:
        finder.WHOLE_SECONDS = old


def test_layers_that_time_kept_from_us_are_not_denied() -> None:
    pytest.importorskip("scipy")
    from hurleyoak.proof.names import Names
    from hurleyoak.search.jobs import LAYERS, Task, work
    from hurleyoak.show.telling import _no_layers

    loaded = load((EXAMPLES / "majority" / "majority.pop").read_text(), "f")
    leaf = loaded.net.leaves[0]
    result = work(Task(LAYERS, 0, leaf, loaded.whole_tree(), 0.0, 0.0, net=loaded.net, whole=loaded.whole_tree()))
    told = _no_layers(Names(loaded.net.names, leaf), result)
    assert "may exist: the time was up" in told and "no layers" not in told and "needs goals" not in told


def test_what_ended_by_time_says_so(monkeypatch: pytest.MonkeyPatch) -> None:
    z3 = pytest.importorskip("z3")
    import numpy as np

    from hurleyoak.proof.facts import AT_LEAST
    from hurleyoak.search import exact
    from hurleyoak.proof.items import Row
    from hurleyoak.search.solver import Trouble

    solver = object.__new__(exact.ExactSolver)
    solver.z3, solver.calls = z3, 0
    monkeypatch.setattr(exact.ExactSolver, "_checked", lambda self, made: z3.unknown)
    with pytest.raises(Trouble, match="time was up"):
        solver.sums([Row(AT_LEAST, np.array([0]), np.array([1]), -1)])


@pytest.mark.parametrize("command", [["check", "{}"], ["find", "{}"], ["not", "{}"], ["run", "{}", "x=3"]])
def test_a_signal_is_no_rejection(command: list[str], stand_in: Path) -> None:
    pytest.importorskip("scipy")
    (stand_in.parent / "stand-in.dies").touch()
    words = [word.format(EXAMPLES / "majority" / "majority.pop") for word in command]
    if command[0] == "run":
        stand_in.write_text("#!/bin/sh\nkill -SEGV $$\n")
    run = pop(*words, POP_MAIN=str(stand_in))
    assert run.returncode == 128 + 11 and "ended by signal 11" in run.stderr and "reject" not in run.stderr
    own = pop("check", text="{}\n", POP_MAIN=str(stand_in))
    assert own.returncode == 128 + 11 and "ended by signal 11" in own.stderr


def test_closed_streams(stand_in: Path) -> None:
    pytest.importorskip("scipy")
    file = EXAMPLES / "majority" / "majority.pop"

    def closed(words: str, **more: str) -> "subprocess.CompletedProcess[bytes]":
        return subprocess.run(
            ["sh", "-c", f"{POP} {words}"],
            capture_output=True,
            check=False,
            env={**os.environ, "POP_MAIN": str(stand_in)},
        )

    found = closed(f"find {file} 2>&-")
    assert found.returncode == 0 and json.loads(found.stdout)["pred"] == "y - x < 0"
    for words in ("net", "find", "text", "check"):
        assert closed(f"{words} {file} >&-").returncode in (6, 7), words
    for words in ("net <&-", "check - <&-", "find <&-"):
        run = closed(words)
        assert run.returncode in (2, 6, 7) and b"Traceback" not in run.stderr


TYPOS = [
    ("states A b\ninputs x: A\nA + A -> b + c\nyes b\n", "none of the states that the line `states` lists"),
    ("inputs x: A\nhelpers 2L\nA + L -> b + b\nyes b\n", "`2*L`"),
    ("inputs x: A\nhelpers 3 A\nyes A\n", "3 helpers in one state are written"),
    ("inputs x: A\nyes A\ncomputes x < 1\ncomputes x < 2\n", "was there before"),
    ("predicate x < 1\ninputs x: A\nyes A\npredicate x < 2\n", "was there before"),
    ("combine P\ncombine P\nleaf P\ninputs x: A\nyes A\n", "was there before"),
]


@pytest.mark.parametrize("text, told", TYPOS)
def test_typos_are_told(text: str, told: str) -> None:
    with pytest.raises(InputFault, match=re.escape(told)):
        load(text, "f")


def test_a_leaf_that_the_combination_does_not_name_is_told() -> None:
    loaded = load("combine P\nleaf P\ninputs x: A\nyes A\nleaf Q\ninputs x: A\nyes A\n", "f")
    assert any("doesn't name leaf `Q`" in told for told in loaded.warnings)


@pytest.mark.parametrize(
    "words",
    [
        ["refute", "--agents", "5.5"],
        ["find", "--jobs", "2.7"],
        ["find", "--jobs", "\u00b2"],
        ["find", "--seconds", "nan"],
        ["find", "--seconds", "--"],
        ["refute", "--agents=--"],
    ],
)
def test_numbers_that_are_none(words: list[str]) -> None:
    run = pop(words[0], str(EXAMPLES / "majority" / "majority.pop"), *words[1:], POP_MAIN="/bin/false")
    assert run.returncode == program.USAGE and ("number" in run.stderr or "followed by its value" in run.stderr)


def test_a_predicate_without_variables_is_told() -> None:
    run = pop("eval", "3 < 5", "x=4", POP_MAIN="/bin/false")
    assert run.returncode == program.REFUSED and "has no variable" in run.stderr


def test_no_crowd_has_less_than_two_agents() -> None:
    file = str(EXAMPLES / "majority" / "majority.pop")
    run = pop("refute", file, "--agents", "1", POP_MAIN="/bin/false")
    assert run.returncode == program.USAGE and "`--agents` is 2 at least" in run.stderr
    helped = str(EXAMPLES / "helper" / "helper.pop")
    assert pop("refute", helped, "--agents", "1", POP_MAIN="/bin/false").stdout.startswith(
        "no flaw: all inputs of up to 1"
    )


def test_a_coin_is_drawn_with_its_law() -> None:
    from hurleyoak.show.netdrawing import arrow_texts

    assert arrow_texts(load(COIN, "f").net.leaves[0]) == {(0, 1): "B @ 0.5", (1, 0): "A @ 0.5"}
    twice = "inputs x: A\nA + A -> A + b\nA + A -> b + A\nyes A\n"
    assert arrow_texts(load(twice, "f").net.leaves[0]) == {(0, 1): "A"}
