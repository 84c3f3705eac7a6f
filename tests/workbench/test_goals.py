"""Proofs with goals: files, names, the reading of the workbench beside the program's, and what is said of them."""
from __future__ import annotations

import itertools
import json
import random
import subprocess
from dataclasses import replace
from pathlib import Path
from typing import Any

import pytest
from hypothesis import given, settings
from hypothesis import strategies as st

from hurleyoak.engine import program
from hurleyoak.faults import InputFault
from hurleyoak.library import load as protocol
from hurleyoak.proof.bundles import Bundle, Goal, Layer, LeafGoals, Linear, Open, Present, bundle_of
from hurleyoak.proof.checking import goal_fault, verdict
from hurleyoak.proof.joining import joined, negated
from hurleyoak.proof.staying import Stay, escapes, stay_of
from hurleyoak.protocol.nets import FormatFault, Net, compact
from hurleyoak.protocol.predicatereader import read_predicate
from hurleyoak.show.drawing import drawn
from hurleyoak.show.explaining import bundle_to_explain, explain
from hurleyoak.show.page import page
from hurleyoak.show.values import explanation_value
from hurleyoak.simulation.journals import read_journal
from hurleyoak.text.files import load
from hurleyoak.text.loaded import LoadedNet, strict_bundle
from hurleyoak.text.saving import with_proof
from hurleyoak.text.writer import text_of

from .changes import changed
from .conftest import CHANGES, EXAMPLES, TOP, bundle_at, needs_program
from .test_files import damaged, nets
from .test_recheck import second

STABLE = sorted((EXAMPLES / "stable").glob("*.json"))
VALUES = [json.loads(path.read_text()) for path in STABLE]
POP = str(TOP / "bin" / "pop")
TELLING = EXAMPLES / "stable" / "telling-leader.pop"


def pop(*words: str, text: str = "") -> "subprocess.CompletedProcess[str]":
    """Runs bin/pop."""
    return subprocess.run([POP, *words], input=text, capture_output=True, text=True, check=False, cwd=TOP)


@pytest.mark.parametrize("path", STABLE, ids=lambda path: f"{path.stem}")
def test_each_example_is_stable_in_both_files(path: Path) -> None:
    bundle = bundle_at(path)
    assert bundle.has_goals and verdict(bundle) == path.with_suffix(".expected").read_text().strip()
    assert strict_bundle(load(path.with_suffix(".pop").read_text(), "f")) == bundle


@st.composite
def with_goals(draw: Any) -> Bundle:
    """Bundles whose leaves have goals, most of them not valid."""
    net = draw(nets())
    size, number = st.integers(-2, 2), st.integers(0, 6)
    parts = []
    for leaf in net.leaves:
        states = st.lists(st.integers(0, 5), max_size=4, unique=True).map(lambda one: tuple(sorted(one)))
        weights = st.lists(size, min_size=len(leaf.states), max_size=len(leaf.states)).map(lambda one: tuple(one))
        layer = st.builds(Layer, st.lists(number, max_size=3).map(lambda one: tuple(one)), weights)
        node = st.one_of(
            st.builds(Linear, st.lists(st.tuples(number, size), max_size=3).map(lambda one: tuple(one))),
            st.builds(Present, st.integers(0, 5)),
            st.builds(Open, number),
        )
        goal = st.builds(
            Goal,
            st.lists(layer, max_size=2).map(lambda one: tuple(one)),
            st.lists(states, max_size=3).map(lambda one: tuple(one)),
            st.lists(node, max_size=5).map(lambda one: tuple(one)),
        )
        parts.append(LeafGoals("x < 1", draw(goal), draw(goal)))
    return Bundle(net, "x < 1", tuple(parts))


@settings(deadline=None, max_examples=200)
@given(with_goals())
def test_any_bundle_with_goals_is_written_and_read_back(bundle: Bundle) -> None:
    assert strict_bundle(load(text_of(bundle.net, bundle), "f")) == bundle
    assert bundle_of(json.loads(bundle.line())) == bundle
    line = verdict(bundle)
    assert second(bundle.value()) == line
    assert strict_bundle(load(drawn(explain(load(bundle.line(), "x"), bundle, line)), "x")) == bundle


def test_seeded_changes_are_read_alike_by_both_readings() -> None:
    for seed in range(5 * CHANGES):
        value = changed(VALUES[seed % len(VALUES)], seed)
        try:
            own = verdict(bundle_of(value))
        except FormatFault:
            continue
        assert second(value) == own, seed


@needs_program
def test_seeded_changes_are_read_as_the_program_reads_them() -> None:
    for seed in range(2 * CHANGES):
        value = changed(VALUES[seed % len(VALUES)], seed)
        line = program.check(compact(value)).first_line
        if not line.startswith("fault"):
            assert verdict(bundle_of(value)) == line, seed


@needs_program
def test_damaged_goals_are_refused_with_the_program_s_words() -> None:
    for seed in range(CHANGES):
        value = dict(VALUES[seed % len(VALUES)])
        value["proof"] = damaged({"proof": value["proof"]}, random.Random(seed)).get("proof")
        line = program.check(compact(value)).first_line
        try:
            bundle_of(value)
        except FormatFault as fault:
            assert str(fault) == line, seed
        else:
            assert not line.startswith("fault"), seed


def test_a_member_layers_makes_it_a_proof_without_goals() -> None:
    value = json.loads(STABLE[0].read_text())
    value["proof"][0]["layers"] = []
    with pytest.raises(FormatFault, match="/proof/0/true kind"):
        bundle_of(value)


def test_why_sets_stay() -> None:
    leaf = bundle_at(TELLING.with_suffix(".json")).net.leaves[0]
    right = [q for q, output in enumerate(leaf.outputs) if output]
    out = frozenset(escapes(leaf, frozenset(right)))
    assert out == {0}
    assert stay_of(leaf, out, right) is Stay.GUARDED
    assert stay_of(leaf, frozenset(), right) is Stay.SETTLED
    assert stay_of(leaf, frozenset(), range(len(leaf.states))) is Stay.CLOSED
    assert stay_of(leaf, frozenset({3}), right) is None


def test_a_goal_rests_on_its_own_moves_alone() -> None:
    """`present` looks at the moves of the layers: with a move taken out of them the tree says less."""
    bundle = bundle_at(TELLING.with_suffix(".json"))
    leaf, part = bundle.net.leaves[0], bundle.proof[0]
    goal = part.goal(True)
    assert goal is not None
    tree = read_predicate(part.pred, bundle.net.names)
    assert goal_fault(leaf, tree, True, goal) is None
    less = Goal((Layer((), goal.layers[0].weights), *goal.layers[1:]), goal.sets, goal.nodes)
    fault = goal_fault(leaf, tree, True, less)
    assert fault is not None and fault.words().startswith("set 0 leaves 0")


@pytest.mark.parametrize(
    "old, new, told",
    [
        ("when true\n", "layers none\nwhen true\n", "here they stand in both places"),
        ("when false\n  layer", "when false\n  open predicate\n  layer", "the other value has layers of its own"),
        ("  open predicate\n  present L1v0\n", "  keeps {L1v0\n  open predicate\n  present L1v0\n", "`,` or `}`"),
        ("  open predicate\n", "  keeps {nobody}\n  open predicate\n", "`nobody` is no state"),
        ("  layer", "  layers ?\n  keeps {F1v0}\n  open predicate\n  layer", "rest on its layers"),
    ],
)
def test_texts_that_are_refused(old: str, new: str, told: str) -> None:
    text = TELLING.read_text()
    assert old in text
    with pytest.raises(InputFault) as caught:
        load(text.replace(old, new, 1), "f")
    assert told in str(caught.value)


def test_one_value_alone_has_no_layers() -> None:
    text = TELLING.read_text()
    head, false = text.split("when false")
    tree = false[false.index("  trap") :]
    with pytest.raises(InputFault) as caught:
        load(f"{head}when false\n{tree}", "f")
    assert "`layers none` below it" in str(caught.value)


def test_an_open_goal_is_to_be_found() -> None:
    head = TELLING.read_text().split("when false")[0]
    loaded = load(head + "when false ?\n", "f")
    with pytest.raises(InputFault) as caught:
        strict_bundle(loaded)
    assert "is to be found" in str(caught.value)
    bundle = bundle_to_explain(loaded)
    assert "rejected leaf 0 false" in verdict(bundle)


def test_what_is_explained() -> None:
    text = told_of(bundle_at(TELLING.with_suffix(".json")))
    assert "# reached by at most 3 steps for each agent: none of the moves in the layers is possible\n" in text
    assert "# there all agents are in {L1v0, F1v0, F1v1}\n" in text
    assert "{L1v0, F1v0, F1v1} stays: only `L1v0 + L1v0 -> L2v0 + F0v0` would lead out" in text
    assert "# in it these may go on for ever: `L1v0 + F1v0 -> L1v0 + F1v1`, `L1v0 + F1v1 -> L1v0 + F1v0`" in text
    assert "# from the start on, all agents are in {S}" in told_of(bundle_at(EXAMPLES / "stable" / "two-looks.json"))


def test_a_page_has_the_goals() -> None:
    bundle = bundle_at(TELLING.with_suffix(".json"))
    told = explain(load(bundle.line(), "x"), bundle, "stable 3")
    value = explanation_value(told)
    goals = value["leaves"][0]["goals"]
    assert value["good"] and len(goals["true"]["layers"]) == 2 and not goals["true"]["lacks"]
    assert any("would lead out" in line for line in goals["true"]["told"])
    assert 'class="verdict good">stable 3' in page(told)


def told_of(bundle: Bundle) -> str:
    """The drawn text of a bundle, with the workbench's own line in the program's place."""
    return drawn(explain(load(bundle.line(), "x"), bundle, verdict(bundle)))


@pytest.mark.parametrize(
    "name, sentence",
    [
        ("goal-not-lower", "has to lower the weights of its layer"),
        ("goal-shape", "lists move 0, `I1 + S -> I1 + I1`, which stood before"),
        ("goal-wakes", "possible again"),
        ("goal-no-twin", "no move that changes something takes I1 twice"),
        ("set-output", "S of the set {S, I1, I2} doesn't output true"),
        ("set-leaves", "leads out of the set"),
        ("set-wakes", "possible again, which leads out of the set"),
    ],
)
def test_what_is_missing_is_said(name: str, sentence: str) -> None:
    text = told_of(bundle_at(EXAMPLES / "rejected" / f"{name}.json"))
    assert ">>> refused" in text and sentence in text


@needs_program
def test_check_says_what_is_stable() -> None:
    run = pop("check", str(TELLING), "--twice")
    assert (run.returncode, run.stdout) == (0, "stable 3\n")
    assert "shown stable" in run.stderr and "says the same" in run.stderr
    assert "L1v0 + L1v0 -> L2v0 + F0v0" in run.stderr and "agents may go on changing" in run.stderr
    of_json = pop("check", str(TELLING.with_suffix(".json")))
    assert "predicate x + 2*y = 1 mod 3" in of_json.stderr and "L1v0 + L1v0" not in of_json.stderr


@needs_program
def test_files_both_ways() -> None:
    made = pop("bundle", str(TELLING)).stdout
    assert made == TELLING.with_suffix(".json").read_text()
    assert strict_bundle(load(pop("text", "-", text=made).stdout, "f")).line() + "\n" == made


@needs_program
def test_show_names_the_goals() -> None:
    """Each with its value, its layers and its sets, below the moves of its leaf."""
    run = pop("show", str(TELLING))
    lines = run.stdout.splitlines()
    assert run.returncode == program.DONE and lines[0].startswith("stable ") and lines[1].startswith("predicate ")
    assert [line for line in lines if line.startswith("goal ")] == ["goal true", "goal false"]
    assert max(at for at, line in enumerate(lines) if line.startswith("move ")) < lines.index("goal true")
    assert any(line.startswith("set ") for line in lines[lines.index("goal true") :]) or "layer 0" in lines


@needs_program
@pytest.mark.parametrize("command", ["run", "watch"])
def test_runs_by_goals_end_where_the_outputs_stay(command: str) -> None:
    looks = str(EXAMPLES / "stable" / "two-looks.pop")
    run = pop(command, looks, "x=1", "y=2", "--turns", "4096")
    assert run.returncode == program.DONE and run.stdout.endswith("\nsettled true\n")
    flag = ["--watched"] if command == "watch" else []
    again = pop("replay", *flag, text=run.stdout)
    assert (again.returncode, again.stdout[:6]) == (program.DONE, "holds ")
    other = pop("replay", *flag, text=run.stdout.replace("settled true", "verdict true"))
    assert other.returncode == program.DIFFERS
    assert other.stdout.endswith("\nkept: verdict true\nfound: settled true\n")
    spent = pop(command, looks, "x=1", "y=2", "--turns", "0")
    assert spent.returncode == program.UNDECIDED and spent.stdout.endswith("\nundecided 0 1\n")
    assert "the turns are used up before an answer that stays" in spent.stderr
    assert pop(command, looks, "y=3").stdout.endswith("end\nS 3\nsettled false\n")


@needs_program
def test_a_settled_journal_is_no_terminal_one() -> None:
    """Agents may go on changing behind its end."""
    made = pop("run", str(EXAMPLES / "stable" / "two-looks.pop"), "x=3", "--turns", "9").stdout
    assert made.endswith("\nend\nI1 3\nsettled true\n") and not read_journal(made, "journal").terminal


@needs_program
def test_settle_leads_to_an_answer_that_stays() -> None:
    run = pop("settle", str(EXAMPLES / "stable" / "two-looks.pop"), "x=1", "y=2")
    assert (run.returncode, run.stdout) == (0, "take 0 0 0 1\ntake 0 0 0 2\nend\nI1 3\nsettled true\n")
    assert pop("settle", str(TELLING), "x=1", "y=2").stdout.endswith("settled false\n")


@needs_program
def test_the_library_knows_stable() -> None:
    verdict_ = protocol(str(TELLING)).check()
    assert verdict_ and verdict_.stable and not verdict_.certified and verdict_.bound == 3


def test_goals_carry_over() -> None:
    """The negation, and a join with a leaf that falls silent."""
    one, silent = bundle_at(TELLING.with_suffix(".json")), bundle_at(EXAMPLES / "majority" / "bundle.json")
    assert verdict(negated(one)) == "stable 3"
    assert verdict(joined("and", one, silent, {})) == "stable 5"
    flock = bundle_at(EXAMPLES / "flock" / "bundle.json")
    assert verdict(joined("or", flock, one, {})).startswith("stable")


def test_a_proof_with_goals_is_saved_into_the_text_of_its_net() -> None:
    bundle = bundle_at(TELLING.with_suffix(".json"))
    bare = text_of(bundle.net) + f"# kept\ncomputes {bundle.proof[0].pred}\n"
    text = with_proof(bare, bundle)
    assert "# kept" in text and strict_bundle(load(text, "f")) == bundle
    assert strict_bundle(load(with_proof(text, bundle), "f")) == bundle


QUICK = [
    "two-looks",
    "flickering-flock",
    "flipping-majority",
    "coins",
    "telling-leader",
    "moves-down",
    "shared-amounts",
]


def bare(name: str) -> LoadedNet:
    """An example without its proof."""
    bundle = bundle_at(EXAMPLES / "stable" / f"{name}.json")
    return LoadedNet(name, bundle.net, bundle.pred, [part.pred for part in bundle.proof])


@pytest.mark.parametrize("name", QUICK)
def test_goals_are_found_again(name: str) -> None:
    pytest.importorskip("scipy")
    from hurleyoak.search.finding import find

    found = find(bare(name), 60.0, 0.0, jobs=1)
    assert found.bundle is not None, found.failures
    line = verdict(found.bundle)
    least = int((EXAMPLES / "stable" / f"{name}.expected").read_text().split()[1])
    assert line.startswith("stable ") and int(line.split()[1]) <= least + 1
    assert "goal for true" in found.told()[0] and "goal for false" in found.told()[1]


def test_what_is_written_of_goals_is_kept() -> None:
    pytest.importorskip("scipy")
    from hurleyoak.search.finding import find

    text = TELLING.read_text()
    whole = strict_bundle(load(text, "f")).proof[0]
    head = text.split("when false")[0]
    for open_text in (head + "when false ?\n", head.split("  open")[0] + "  ?\n" + "when false ?\n"):
        found = find(load(open_text, "f"), 60.0, 0.0, jobs=1)
        assert found.bundle is not None and verdict(found.bundle) == "stable 3"
        kept, before = found.bundle.proof[0].goal(True), whole.goal(True)
        assert kept is not None and before is not None and kept.layers == before.layers


def test_a_goal_that_is_given_and_has_no_tree_is_told() -> None:
    pytest.importorskip("scipy")
    from hurleyoak.search.finding import find
    from hurleyoak.show.telling import failure_told

    loaded = load(TELLING.read_text().split("when true")[0] + "when true\n  layers none\n  ?\nwhen false ?\n", "f")
    found = find(loaded, 20.0, 0.0, jobs=1)
    assert found.bundle is None and found.flaw is None
    assert "goal for true: with these layers and sets no tree was found" in failure_told(loaded, found.failures[0])


@needs_program
@pytest.mark.parametrize("name", ["set-leaves", "goal-not-lower", "goal-no-twin"])
def test_what_is_refused_of_goals_is_mended(name: str) -> None:
    pytest.importorskip("scipy")
    run = pop("find", "--mend", str(EXAMPLES / "rejected" / f"{name}.json"))
    assert run.returncode == program.DONE and run.stderr.startswith("stable "), run.stderr


def test_goals_beside_leaves_that_fall_silent() -> None:
    """In a net of two leaves the one that never rests gets goals, and the other one layers."""
    pytest.importorskip("scipy")
    from hurleyoak.search.finding import find

    one, silent = bundle_at(EXAMPLES / "stable" / "two-looks.json"), bundle_at(EXAMPLES / "majority" / "bundle.json")
    both = joined("and", silent, one, {})
    found = find(LoadedNet("x", both.net, both.pred, [part.pred for part in both.proof]), 60.0, 0.0, jobs=1)
    assert found.bundle is not None and verdict(found.bundle).startswith("stable ")
    assert [part.goal(True) is None for part in found.bundle.proof] == [True, False]


@settings(deadline=None, max_examples=60)
@given(nets(), st.sampled_from(["x < 1", "x - y < 0", "x + y >= 2", "x = 1 mod 2"]))
def test_wrong_nets_have_no_goals(net: Net, pred: str) -> None:
    """What is shown stable is right in all small crowds, by their bottom components."""
    pytest.importorskip("scipy")
    from hurleyoak.search.goals import NoGoal, find_goal
    from hurleyoak.search.limits import clock

    from .test_find import brute

    leaf, tree = net.leaves[0], read_predicate(pred, net.names)
    try:
        goals = [find_goal(leaf, tree, value, clock() + 0.4, 0.0) for value in (True, False)]
    except NoGoal:
        return
    assert (
        verdict(Bundle(replace(net, leaves=(leaf,), combine=(0,)), pred, (LeafGoals(pred, *goals),)))[:6] == "stable"
    )
    for counts in itertools.product(range(4), repeat=len(leaf.inputs)):
        if 2 <= sum(counts) + len(leaf.helpers) <= 5:
            assert brute(leaf, tree, counts) != "flaw", (net, pred, counts)
