"""find: its facts are those of `hurleyoak.proof.facts`, what it finds is certified, what it refutes is played."""
from __future__ import annotations

import random
import re
from dataclasses import replace
from pathlib import Path

import pytest
from hypothesis import given, settings
from hypothesis.strategies import integers

from hurleyoak.engine import program
from hurleyoak.proof.checking import first_woken, layer_fault, verdict
from hurleyoak.proof.entries import entries_of
from hurleyoak.proof.facts import Space
from hurleyoak.text.files import load
from hurleyoak.text.loaded import LoadedNet
from hurleyoak.text.membersof import load_member
from hurleyoak.protocol.nets import Leaf, Net, pair
from hurleyoak.protocol.predicatereader import read_predicate
from hurleyoak.protocol.predicates import Predicate, value_at
from hurleyoak.proof.bundles import Bundle, First, Layer, LeafProof, Node, Present, Siphon, Split, Trap, Twin

from .conftest import CHANGES, EXAMPLES, bundle_at, example_paths, needs_program
from .test_commands import find_without_first, pop
from .test_files import nets

pytest.importorskip("scipy")

from bench.finder import mutants as changed_nets  # noqa: E402
from bench.finder import own_protocols as own  # noqa: E402
from bench.finder import protocols as p  # noqa: E402
from bench.finder.families import small_nets  # noqa: E402
from bench.finder.making import Case  # noqa: E402
from bench.finder.trees import OTHERS, read_sizes  # noqa: E402
from hurleyoak.search.flaws import ENDLESS as ENDLESS_KIND  # noqa: E402
from hurleyoak.search.flaws import RESTLESS as RESTLESS_KIND  # noqa: E402
from hurleyoak.search.flaws import WRONG as WRONG_KIND  # noqa: E402
from hurleyoak.search.explore import Graph, explore, flaw_at  # noqa: E402
from hurleyoak.search.flaws import Crowd, Flaw  # noqa: E402
from hurleyoak.search import howfar  # noqa: E402
from hurleyoak.search.finding import Outcome, drafts_of, find, tasks_of  # noqa: E402
from hurleyoak.search.jobs import FLAW, work  # noqa: E402
from hurleyoak.proof.items import Cases, fact_of  # noqa: E402
from hurleyoak.search.larger import larger_flaw  # noqa: E402
from hurleyoak.search.layers import LayerFinder  # noqa: E402
from hurleyoak.search.limits import clock  # noqa: E402
from hurleyoak.search.whole import system_of  # noqa: E402
from hurleyoak.search.least import least_groups  # noqa: E402
from hurleyoak.search.smt import NONE, layers_by_smt  # noqa: E402
from hurleyoak.search.trees import Entered  # noqa: E402
from hurleyoak.search.waking import Waking  # noqa: E402


def found(case: Case, seconds: float = 60.0, small: float = 0.0) -> Outcome:
    """What `find` says of a net."""
    return find(
        LoadedNet(case.name, case.net, case.predicate, list(case.leaves or [case.predicate])), seconds, small, jobs=1
    )


@settings(deadline=None, max_examples=60)
@given(nets())
def test_cases_are_those_of_the_facts(net: Net) -> None:
    leaf = net.leaves[0]
    cases, space = Cases(leaf), Space(leaf)
    count = len(leaf.states)
    nodes: list[Node] = [
        Present(count - 1),
        Twin(0),
        Trap((0,)),
        Siphon((0,)),
        Trap(tuple(range(count))),
        Siphon(tuple(range(0, count, 2))),
        First((0,)),
        First(tuple(range(0, count, 2))),
        Split(((0, 1), (1, -2)), 3),
    ]
    for node in nodes:
        made = [[fact_of(item, at) for item in case for at in range(len(item))] for case in cases.of(node)]
        wanted = space.cases(node)
        assert [[(f.kind, f.terms, f.constant) for f in case] for case in made] == [
            [(f.kind, f.terms, f.constant) for f in case] for case in wanted
        ]


@settings(deadline=None, max_examples=60)
@given(nets())
def test_facts_before_an_entry_are_those_of_the_checker(net: Net) -> None:
    leaf = net.leaves[0]
    cases, space = Cases(leaf), Space(leaf)
    tree = read_predicate("x - y < 1", net.names)
    trap = Trap((0,))
    for states in ((0,), tuple(range(0, len(leaf.states), 2))):
        for at in range(3):
            branch = [*cases.base(tree, True), *list(cases.of(trap))[at]]
            facts = [*space.base(tree, True), *space.cases(trap)[at]]
            made = Entered(cases, *cases.before(states)).base(branch)
            mine = [fact_of(item, k) for item in made for k in range(len(item))]
            wanted = entries_of(space, facts, First(states)).facts
            assert [(f.kind, f.terms, f.constant) for f in mine] == [(f.kind, f.terms, f.constant) for f in wanted]


@settings(deadline=None, max_examples=60)
@given(nets())
def test_waking_is_that_of_the_checker(net: Net) -> None:
    leaf = net.leaves[0]
    waking = Waking(leaf)
    rng = random.Random(len(leaf.moves))
    place = {t: rng.randrange(2) for t in leaf.active}
    early = [t for t in leaf.active if place[t] == 0]
    late = [t for t in leaf.active if place[t] == 1]
    assert waking.wakes_none(early, late) == (first_woken(leaf, place) is None)


def good(outcome: Outcome) -> Bundle:
    """The bundle, which the workbench's own reading and the program's certify."""
    assert outcome.bundle is not None, [f.told for f in outcome.failures]
    assert verdict(outcome.bundle).startswith("certified")
    return outcome.bundle


SAMPLE = [
    p.epidemic(),
    p.majority(True),
    p.flock(7),
    p.flock(5, rest=True),
    p.tower(6),
    p.log_flock(6),
    p.binary_flock(21),
    p.threshold((1, -1), 0),
    p.remainder(5, 1),
    p.average(5),
    own.counter(3),
    own.helper_rest(3),
    own.head_start(2),
    own.interval(2, 3),
    own.mod_three(),
    own.twice(),
    own.same(False),
    own.alarm(3),
]


SMALL = [p.tower(2), p.remainder(3, 1), p.average(7), own.counter(2), own.helper_rest(5), own.exactly_one()]


@pytest.mark.parametrize("case", SAMPLE, ids=lambda case: f"{case.family}: {case.name}")
def test_families_are_found(case: Case) -> None:
    bundle = good(found(case))
    assert bundle.net == case.net and bundle.pred == case.predicate


@needs_program
def test_what_is_found_is_certified_by_the_program() -> None:
    for case in list(small_nets())[::6]:
        bundle = good(found(case))
        assert program.check(bundle.line()).first_line == verdict(bundle)


def test_trees_are_as_small_as_they_are_known() -> None:
    bundle = good(found(p.flock(9)))
    assert (len(bundle.proof[0].tree(True)), len(bundle.proof[0].tree(False))) == (19, 5)


@pytest.mark.parametrize("case", SMALL, ids=lambda case: f"{case.family}: {case.name}")
def test_trees_are_made_as_small_as_an_earlier_finder_s(case: Case) -> None:
    sizes = [len(tree) for part in good(found(case, small=4.0)).proof for tree in map(part.tree, (True, False))]
    assert all(ours <= theirs for ours, theirs in zip(sizes, read_sizes(OTHERS)[case.family, case.name]))


def test_each_example_is_found_again() -> None:
    for path in example_paths():
        if path.name == "bundle.json":
            bundle = bundle_at(path)
            again = good(
                find(LoadedNet("x", bundle.net, bundle.pred, [part.pred for part in bundle.proof]), 60.0, 0.0, jobs=1)
            )
            assert verdict(again).startswith("certified ")
            # (tame layers are sought first, and they may be one more)
            for part, known in zip(again.proof, bundle.proof):
                assert isinstance(part, LeafProof) and isinstance(known, LeafProof)
                assert len(part.layers) <= len(known.layers) + 1


WRAPPING = """family   w in 20..200
inputs   x: c1  y: c0
for i in 1..w-1, j in i..w-1
  c{i} + c{j} -> c{(i+j)%w} + c0
for i in 5..w-1
  c{i} + c0 -> c{i} + y0
for i in 1..4
  c{i} + y0 -> c{i} + c0
c0 + y0 -> c0 + c0
yes      [c{i} for i in 5..w-1] y0
computes x >= 5
"""


@needs_program
@pytest.mark.parametrize("command", ["find", "refute"])
def test_a_flaw_of_many_agents_is_found(command: str, tmp_path: Path) -> None:
    """A counter that begins anew is right for fewer agents; the program plays what is told."""
    file = tmp_path / "wrapping.pop"
    file.write_text(WRAPPING)
    run = pop(command, str(file), "--with", "w=40", "--seconds", "15")
    told = run.stdout + run.stderr
    assert run.returncode == 3 and "at x=40 y=0 the predicate `x >= 5` is true" in told, told[:500]
    assert "the end: 40 c0\n" in told


@pytest.mark.parametrize("wraps", [23, 100])
def test_larger_crowds_are_walked(wraps: int) -> None:
    loaded = load_member(WRAPPING, {"w": wraps}, "x")
    found = larger_flaw(system_of(loaded.net), loaded.whole_tree(), clock() + 60)
    assert found is not None and found.counts == (wraps, 0) and found.kind == WRONG_KIND
    case = p.flock(5)
    assert larger_flaw(system_of(case.net), read_predicate(case.predicate, case.net.names), clock() + 0.5) is None


def test_two_processes_find_the_same() -> None:
    case = p.flock(5)
    loaded = LoadedNet("x", case.net, case.predicate, [case.predicate])
    assert find(loaded, 60.0, 0.0, jobs=2).bundle == find(loaded, 60.0, 0.0, jobs=1).bundle


def test_great_numbers_are_exact() -> None:
    pytest.importorskip("z3")
    good(found(p.log_flock(18)))


# -- parts

PARTS = (EXAMPLES / "majority" / "majority.pop").read_text()


@pytest.mark.parametrize(
    "old, new",
    [
        ("lin -flow(A) + flow(B) + value - absent(A)", "lin ?"),
        ("layer     A: 1  B: 1  b: 1", "layer     ?"),
        (
            (
                "      here: trap {A, b}\n        leaves: lin leaves{A, b}\n        never: lin flow(a) + here(a) -"
                " never[A + B -> a + b] - never[A + b -> A + a]\n        some: lin -absent(A) - absent(b) + some{A,"
                " b}\n"
            ),
            "      here: ?\n",
        ),
        (
            (
                "when true\n  open predicate\n  present A\n    absent: lin -flow(A) + flow(B) + value - absent(A)\n   "
                " here: lin wrong - absent(B) - absent(b)\n"
            ),
            "when true ?\n",
        ),
    ],
)
def test_what_is_written_is_kept(old: str, new: str) -> None:
    assert old in PARTS
    loaded = load(PARTS.replace(old, new), "x")
    bundle = good(find(loaded, 60.0, 0.0, jobs=1))
    given_ = load(PARTS, "x")
    assert given_.drafts is not None
    kept = bundle.proof[0]
    assert isinstance(kept, LeafProof)
    if "layer" in new:
        assert kept.layers[0].moves == (0, 1) and kept.layers[1] == Layer((2, 3), (0, 0, 1, 0))
    else:
        assert kept.layers == (Layer((0, 1), (1, 1, 0, 1)), Layer((2, 3), (0, 0, 1, 0)))
    if "when true ?" not in new:
        assert list(kept.true) == given_.drafts[0].true or "lin ?" in new
    if "here: ?" in new:
        assert list(kept.false)[:4] == list(given_.drafts[0].false or [])[:4]


def test_a_layer_that_has_no_weights_is_told() -> None:
    text = PARTS.replace("layer     A: 1  B: 1  b: 1", "layer     ?").replace("layer     a: 1\n", "")
    outcome = find(load(text, "x"), 60.0, 0.0, jobs=1)
    assert outcome.failures and "have no weights" in outcome.failures[0].told and outcome.failures[0].moves


# -- counterexamples

WRONG = (
    "inputs x: A  y: B\nA + B -> a + b\nA + b -> A + a\nB + a -> B + b\na + b -> a + a\nyes A a\ncomputes y - x < 0\n"
)
ENDLESS = "inputs x: A y: B\nA + B -> B + C\nB + C -> A + B\nyes A B\ncomputes x + y >= 0\n"
RESTLESS = ENDLESS.replace("yes A B\n", "yes A B C\n")
# majority whose b goes on between b1 and b2, and the same with a wrong b2
FLIPPING = (
    "inputs x: A  y: B\nA + B -> a + b1\nA + b1 -> A + a\nA + b2 -> A + a\nB + a -> B + b1\na + b1 -> b1 + b1\na + b2"
    " -> b2 + b1\nB + b1 -> B + b2\nB + b2 -> B + b1\nyes A a\ncomputes y - x < 0\n"
)
HIDDEN = "inputs x: A y: B\nA + B -> A + A\nA + B -> B + B\nyes A\ncomputes x >= 1\n"
ORDER = (
    "inputs x: 1  y: 0\n1 + 1 -> 2 + 0\n2 + 2 -> 4 + 0\n4 + 0 -> 4 + 2\n4 + 1 -> 4 + 4\n4 + 2 -> 4 + 4\nyes"
    " 4\ncomputes x >= 4\n"
)
SINKING = (
    "states 0 1 2 3 4\ninputs x: 1  y: 0\n1 + 1 -> 1 + 2\n2 + 2 -> 2 + 3\n3 + 3 -> 3 + 4\n4 + * -> 4 + 4\n2 + 0 -> 1 + 0\n"
    "3 + 0 -> 2 + 0\nyes 4\ncomputes x >= 4\n"
)
UNMERGED = (
    "inputs x: x\nhelpers H0\nH0 + x -> H1 + f\nH1 + x -> H0 + f\nH0 + f -> H0 + t\nH1 + t -> H1 + f\nyes H0"
    " t\ncomputes x = 0 mod 2\n"
)


@needs_program
def test_a_counterexample_is_played(tmp_path: Path) -> None:
    run = pop("find", "--write", str(tmp_path / "play.txt"), text=WRONG)
    assert run.returncode == program.REJECTED
    assert run.stderr.startswith(
        "the protocol is wrong: at x=1 y=1 the predicate `y - x < 0` is false, and 2 moves lead to a terminal crowd in"
        " which a outputs true\n"
    )
    assert run.stderr.endswith("printed:\na 2\nterminal\nwrong: a\n")
    assert program.ask(["play"], (tmp_path / "play.txt").read_text()).text == "a 2\nterminal\n"
    assert pop("refute", text=WRONG).stdout == run.stderr and run.stdout == ""


@needs_program
def test_a_protocol_that_does_not_end() -> None:
    run = pop("refute", text=ENDLESS)
    assert run.returncode == program.REJECTED
    assert run.stdout.startswith(
        "the protocol is wrong, and doesn't end: at x=1 y=1 from the input itself no terminal crowd can be reached\n"
    )
    assert "an agent outputs false" in run.stdout and "the workbench says that none can be reached" in run.stdout
    assert "goes round: 1 A, 1 B; 1 B, 1 C, and again" in run.stdout and "enabled 0 1" in run.stdout
    assert pop("find", text=ENDLESS).stderr == run.stdout


@needs_program
def test_stable_but_not_silent_is_no_counterexample() -> None:
    for text, told in (
        (RESTLESS, "at x=1 y=1 from the input itself"),
        (FLIPPING, "at x=1 y=2 2 moves lead to a crowd from which"),
    ):
        run = pop("refute", "--agents", "5", text=text)
        assert run.returncode == program.UNDECIDED
        assert run.stdout.startswith(
            f"stable, but not silent: {told} no terminal crowd can be reached, while every agent outputs "
        )
        assert (
            "all inputs of up to 5 agents plus helpers were tried" in run.stdout
            and "In the literature such a protocol is right" in run.stdout
        )
        assert "Goals can certify it" in run.stdout
        run = pop("find", text=text)
        assert run.returncode == program.DONE and run.stderr.startswith("stable ")
        assert program.ask(["check"], run.stdout).text == run.stderr.split("\n")[0] + "\n"


@needs_program
def test_stable_but_not_silent_without_goals_is_told_as_before() -> None:
    run = pop("find", "--seconds", "3", text=SINKING)
    assert run.returncode == program.UNDECIDED and run.stderr.startswith("not found: stable, but not silent: at x=")
    assert "`find` found none" in run.stderr and run.stdout == ""


@needs_program
def test_a_wrong_output_behind_a_restless_crowd_is_told() -> None:
    wrong = FLIPPING.replace("yes A a\n", "yes A a b2\n")
    for command in ("find", "refute"):
        run = pop(command, text=wrong)
        assert run.returncode == program.REJECTED, command
        told = run.stdout + run.stderr
        assert "the predicate `y - x < 0` is false there" in told and "an agent outputs true" in told


def brute(leaf: Leaf, tree: Predicate, counts: tuple[int, ...]) -> str | int:
    """The same as `flaw_at` by the bottom components: each crowd's own set of reached crowds."""
    graph = Graph(leaf, counts)
    assert graph.built(2_000, 1e12)
    reached: dict[Crowd, set[Crowd]] = {}
    for start in graph.edges:
        seen, todo = {start}, [start]
        for crowd in todo:
            for _, new in graph.edges[crowd]:
                if new not in seen:
                    seen.add(new)
                    todo.append(new)
        reached[start] = seen
    want = value_at(tree, counts)
    kinds: set[str] = set()
    for crowd, seen in reached.items():
        if all(crowd in reached[other] for other in seen):  # a bottom component
            is_right = all(leaf.outputs[q] == want for other in seen for q, k in enumerate(other) if k)
            if not is_right:
                kinds.add(WRONG_KIND if not graph.edges[crowd] else ENDLESS_KIND)
            elif graph.edges[crowd]:
                kinds.add(RESTLESS_KIND)
    if WRONG_KIND in kinds or ENDLESS_KIND in kinds:
        return "flaw"
    return RESTLESS_KIND if kinds else len(graph.edges)


@settings(deadline=None, max_examples=150)
@given(nets(), integers(0, 3), integers(0, 3))
def test_kinds_of_flaws_are_those_of_the_bottom_components(net: Net, first: int, second: int) -> None:
    leaf = net.leaves[0]
    counts = (first, second, *([1] * len(leaf.inputs)))[: len(leaf.inputs)]
    if sum(counts) + len(leaf.helpers) < 2 or sum(counts) + len(leaf.helpers) > 6:
        return
    tree = read_predicate(f"{net.names[0]} >= 1", net.names)
    found = flaw_at(leaf, tree, counts, 1e12, 2_000)
    if found is None:
        return
    told = found if isinstance(found, int) else found.kind if found.kind == RESTLESS_KIND else "flaw"
    assert told == brute(leaf, tree, counts)
    if isinstance(found, Flaw):
        assert found.size >= len(found.round) and (found.kind == WRONG_KIND) == (not found.round)


@needs_program
def test_a_way_that_needs_a_hidden_move() -> None:
    run = pop("refute", text=HIDDEN)
    assert run.returncode == program.REJECTED
    assert "no meeting takes `A + B -> B + B`" in run.stdout and "can't show it" in run.stdout


@needs_program
def test_neither_found() -> None:
    run = find_without_first(ORDER)
    assert run.returncode == program.UNDECIDED
    assert (
        "candidate for a wrong end" in run.stderr
        and "It can't be reached: all" in run.stderr
        and "What helps" in run.stderr
    )
    assert pop("find", text=UNMERGED).stderr.startswith("stable ")
    # (a line for layers that are to be found asks for a proof without goals)
    run = pop("find", text=UNMERGED + "layers ?\n")
    assert run.returncode == program.UNDECIDED
    assert (
        "no layers were found" in run.stderr
        and "`H1 + t -> H1 + f`" in run.stderr
        and "merge leaders or helpers" in run.stderr
    )
    run = pop("find", "--seconds", "0.01", str(EXAMPLES / "threshold/net.json"), "2*x - y < 1")
    assert run.returncode == program.UNDECIDED and "not found" in run.stderr


@needs_program
def test_find_through_bin_pop() -> None:
    run = pop("find", str(EXAMPLES / "and/net.json"), "x >= 3 && x + 2*y = 1 mod 3")
    assert run.returncode == 0 and program.check(run.stdout.strip()).status == 0
    assert run.stderr.startswith("certified 5\ntame\nleaf 0: 1 layer, bound 2")
    assert (
        pop("refute", str(EXAMPLES / "majority/majority.pop"), "--agents", "5").stdout
        == "no flaw: all inputs of up to 5 agents plus helpers were tried\n"
    )
    assert pop("find", "--odd").returncode == program.USAGE


@needs_program
def test_mutants_are_never_certified_wrongly() -> None:
    answers = []
    for case in changed_nets.mutants(max(12, CHANGES // 20)):
        said = changed_nets.answer(case)
        assert said not in ("REJECTED", "NOT AS PLAYED"), case.name
        if said == "certified":
            tree = LoadedNet("x", case.net, case.predicate, [case.predicate]).part_trees()[0]
            assert explore(case.net.leaves[0], tree, 5, 5.0)[0] is None, case.name
        answers.append(said)
    assert any("counterexample" in said for said in answers)


def test_the_least_bound_is_found() -> None:
    leaf = p.majority(False).net.leaves[0]
    finder = LayerFinder(leaf, 1e12)
    groups = least_groups(finder, 1e12)
    assert groups is not None and sum(layer.spread for layer in finder.layers_of(groups) or []) == 2
    assert layer_fault(leaf, finder.layers_of(groups) or []) is None


def test_smt_shows_that_there_are_no_layers() -> None:
    pytest.importorskip("z3")
    leaf = load(UNMERGED, "x").net.leaves[0]
    answer, some = layers_by_smt(LayerFinder(leaf, 1e12), 1e12)
    assert answer == NONE and sum(map(len, some)) < len(leaf.active)


def test_the_shortest_way_with_the_fewest_agents() -> None:
    loaded = load(WRONG, "x")
    leaf, tree = loaded.net.leaves[0], loaded.part_trees()[0]
    flaw, _ = explore(leaf, tree, 6, 10.0)
    assert isinstance(flaw, Flaw) and sum(flaw.counts) == 2 and len(flaw.moves) == 2
    assert flaw_at(leaf, tree, (2, 0), 1e12) == 1
    assert isinstance(flaw_at(leaf, tree, (3, 3), 1e12), Flaw)


def test_a_leaf_with_hidden_moves_lists_each_pair_once() -> None:
    leaf = load(HIDDEN, "x").net.leaves[0]
    assert isinstance(leaf, Leaf) and pair(*leaf.moves[0][:2]) == pair(*leaf.moves[1][:2])
    assert replace(leaf, moves=leaf.moves[:1]).active == (0,)


def test_each_task_tells_how_far_it_is() -> None:
    """At its end a tree has all its cases closed, and all moves are in layers."""
    loaded = load((EXAMPLES / "majority/majority.pop").read_text().split("\nlayer")[0] + "\n", "majority")
    tasks = tasks_of(loaded, drafts_of(loaded, True), 30, 0)
    shares = [0.0] * len(tasks)
    howfar.serve(shares)
    for number, task in enumerate(tasks):
        howfar.begin(number)
        assert not work(task).why
    assert [round(share, 6) for task, share in zip(tasks, shares) if task.kind != FLAW] == [1.0, 1.0, 1.0]
    assert 0 < shares[0] < 1


def test_how_far_tasks_are_is_told_while_they_go_on(monkeypatch: pytest.MonkeyPatch) -> None:
    loaded = load((EXAMPLES / "majority/majority.pop").read_text().split("\nlayer")[0] + "\n", "majority")
    monkeypatch.setattr(howfar, "LOOK", 0.001)
    told: list[list[float]] = []
    assert find(loaded, 30, 0, 2, going=told.append).bundle is not None
    assert told and all(len(shares) == 4 and max(shares) <= 1 for shares in told)
