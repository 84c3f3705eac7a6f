"""The node `first`: its cases, each entry with facts of its own, by names and told; and what `find` does with it."""
from __future__ import annotations

import json
import random
from itertools import islice
from pathlib import Path

import pytest

from hurleyoak.engine import program
from hurleyoak.proof.bundles import Bundle, First, Linear, Node, Open, Present, Twin, bundle_of, node_of
from hurleyoak.proof.checking import node_fault, tree_fault, verdict
from hurleyoak.proof.entries import entries_of
from hurleyoak.proof.facts import HOLDS, Space, cases_of
from hurleyoak.proof.joining import joined, negated, with_trees
from hurleyoak.protocol.nets import FormatFault, Leaf
from hurleyoak.protocol.predicatereader import read_predicate
from hurleyoak.show.drawing import drawn
from hurleyoak.show.explaining import explain
from hurleyoak.show.values import explanation_value
from hurleyoak.text.files import load
from hurleyoak.text.loaded import Loaded, LoadedNet, strict_bundle
from hurleyoak.text.membersof import load_member
from hurleyoak.text.saving import with_proof
from hurleyoak.text.writer import text_of

from .changes import changed
from .conftest import CHANGES, EXAMPLES, bundle_at, needs_program
from .test_recheck import second

FLOCK = EXAMPLES / "found" / "flock-that-gives-back.pop"
FILES = [
    FLOCK,
    EXAMPLES / "found" / "flock-of-16-that-gives-back.pop",
    EXAMPLES / "found" / "tower-that-gives-back.pop",
    EXAMPLES / "stable" / "restless-flock.pop",
]
TOWER = FILES[2]


def bundle_in(path: Path) -> Bundle:
    """The bundle of a text."""
    return strict_bundle(load(path.read_text(), path.name))


VALUES = [bundle_in(path).value() for path in FILES]


@pytest.mark.parametrize("path", FILES, ids=lambda path: f"{path.stem}")
def test_each_example_in_both_readings_and_by_names(path: Path) -> None:
    bundle = bundle_in(path)
    line = path.with_suffix(".expected").read_text().strip()
    assert second(bundle.value()) == line and verdict(bundle) == line.split("\n")[0]
    assert any(isinstance(node, First) for node in bundle.proof[0].tree(False))
    told = drawn(explain(load(path.read_text(), "f"), bundle, line))
    assert strict_bundle(load(text_of(bundle.net, bundle), "f")) == strict_bundle(load(told, "f")) == bundle


def test_the_cases_with_a_helper_in_the_set() -> None:
    """Entries by number, each behind the flow facts, those of the input, and that nobody was in the set; then the two
    of the end."""
    moves = ((0, 0, 1, 0), (0, 1, 1, 1), (0, 2, 1, 2), (0, 0, 2, 2), (2, 2, 2, 2))
    leaf = Leaf(("a", "b", "c"), moves, (0, 1), (False, True, False), (1, 2))
    space = Space(leaf)
    facts = space.base(read_predicate("x - y < 1", ("x", "y")), True)
    node = First((1,))
    entries = entries_of(space, facts, node)
    assert entries.moves == [0, 2]
    assert entries.facts[3] is facts[3] and entries.facts[4] is facts[4] and entries.facts[4].kind is HOLDS
    rows = [(fact.terms, fact.constant) for fact in entries.facts[5:]]
    assert rows == [(((5, 1),), 0), (((6, 1),), 0), (((7, 1),), 0), (((1, 1),), 0), (((3, 1),), 0), ((), 1)]
    assert [[(f.terms, f.constant) for f in case] for case in entries.cases] == [
        [(((2, 1),), -2)],
        [(((2, 1),), -1), (((4, 1),), -1)],
    ]
    starts, never = cases_of(space, facts, node)
    assert [(f.terms, f.constant) for f in starts] == [(((1, 1),), 0)]
    assert [f.terms for f in never] == [((5, 1),), ((6, 1),), ((7, 1),), ((3, 1),)]


def test_below_an_entry_nothing_is_dead() -> None:
    """`present` only splits, and `twin` is refused, for a state that meets itself."""
    bundle = bundle_in(FLOCK)
    leaf, tree = bundle.net.leaves[0], read_predicate("x >= 4", bundle.net.names)
    space = Space(leaf)
    facts = [*space.base(tree, False), *cases_of(space, space.base(tree, False), Open(5))[0]]
    entries = entries_of(space, facts, First((3,)))
    below = entries.facts + entries.cases[0]
    two = leaf.states.index("2")
    assert node_fault(space, facts, 1, Twin(two)) is None
    assert node_fault(entries.space, below, 2, Twin(two)) == "no-twin"
    assert node_fault(entries.space, below, 2, Twin(9)) == "bad-index"
    assert [len(case) for case in cases_of(entries.space, below, Present(two))] == [1, 1]
    nodes: list[Node] = [Open(5), First((3,)), Twin(two)]
    fault = tree_fault(space, tree, False, nodes)
    assert fault is not None and fault.words() == "2 no-twin"


def _with_false(bundle: Bundle, nodes: list[Node]) -> Bundle:
    part = bundle.proof[0]
    return Bundle(bundle.net, bundle.pred, (with_trees(part, part.tree(True), tuple(nodes)),))


def test_entries_dropped_and_exchanged() -> None:
    """A proof with an entry less, or with its cases in another order, is refused alike by both readings."""
    bundle = bundle_in(FLOCK)
    nodes = list(bundle.proof[0].tree(False))
    for less in range(1, len(nodes)):
        other = _with_false(bundle, nodes[:less] + nodes[less + 1 :])
        assert verdict(other).startswith("rejected") and second(other.value()) == verdict(other)
    for i in range(2, 4):
        turned = nodes[:i] + [nodes[i + 1], nodes[i]] + nodes[i + 2 :]
        other = _with_false(bundle, turned)
        assert verdict(other).startswith("rejected") and second(other.value()) == verdict(other)
    # without the facts of the set, the 2 of `4 + 0 -> 4 + 2` would count
    lin = nodes[2]
    assert isinstance(lin, Linear)
    for term in lin.terms:
        fewer = Linear(tuple(t for t in lin.terms if t != term))
        assert verdict(_with_false(bundle, [*nodes[:2], fewer, *nodes[3:]])) == "rejected leaf 0 false 2 not-closed"


@pytest.mark.parametrize(
    "name, sentence",
    [
        ("first-missing", "`[4 + 0 -> 4 + 2]` is still positive"),
        ("first-end-fact", "there is no fact 13"),
        ("first-entered", "the constant is 1, and has to be -1 or less"),
        ("first-no-twin", "every move may be possible still"),
    ],
)
def test_what_is_missing_before_an_entry_is_said(name: str, sentence: str) -> None:
    """An entry without a case, a fact counted as at the end, a set that can be entered, and a crowd not at its end."""
    bundle = bundle_at(EXAMPLES / "rejected" / f"{name}.json")
    told = drawn(explain(load(bundle.line(), "f"), bundle, verdict(bundle)))
    assert ">>> refused" in told and sentence in told


def test_seeded_changes_are_read_alike_by_both_readings() -> None:
    seen = 0
    for seed in range(20 * CHANGES):
        value = changed(VALUES[seed % len(VALUES)], seed)
        try:
            own = verdict(bundle_of(value))
        except FormatFault:
            continue
        seen += 1
        assert second(value).split("\n")[0] == own, seed
    assert seen > 10 * CHANGES


@needs_program
def test_seeded_changes_are_read_as_the_program_reads_them() -> None:
    for value in VALUES:
        assert program.check(json.dumps(value)).text.rstrip("\n") == second(value)
    for seed in range(2 * CHANGES):
        value = changed(VALUES[seed % len(VALUES)], seed)
        text = program.check(json.dumps(value)).text.rstrip("\n")
        if not text.startswith("fault"):
            assert second(value) == text, seed


def random_nodes(rng: random.Random, leaf: Leaf) -> list[Node]:
    """A tree of sets and sums, most of them not valid, many of `first`."""
    states = range(len(leaf.states))
    made: list[Node] = [Open(len(leaf.states) + 1)]
    for _ in range(rng.randrange(1, 9)):
        some = sorted(rng.sample(states, rng.randrange(len(states))))
        word = rng.choice(["first", "first", "first", "trap", "siphon"])
        one: list[object] = ["present", rng.choice(states)] if rng.random() < 0.3 else [word, some]
        if rng.random() < 0.2:  # (a term of nothing doesn't make it a fact of the end)
            one = ["split", [[0, rng.choice([-1, 1])], [len(leaf.inputs), rng.choice([0, 0, 1])]], rng.randrange(3)]
        made.append(node_of(one, "") if rng.random() < 0.7 else Linear(((rng.randrange(30), rng.choice([1, -1])),)))
    return made


def test_random_trees_are_read_alike_and_written() -> None:
    """First below first, in sets that inputs and helpers start in."""
    rng = random.Random(7)
    bundles = [bundle_in(path) for path in (FLOCK, EXAMPLES / "helper" / "helper.pop", EXAMPLES / "or" / "or.pop")]
    for _ in range(400):
        bundle = rng.choice(bundles)
        leaf, part = bundle.net.leaves[0], bundle.proof[0]
        nodes = tuple(random_nodes(rng, leaf))
        made = with_trees(part, nodes, part.tree(False))
        other = Bundle(bundle.net, bundle.pred, (made, *bundle.proof[1:]))
        assert second(other.value()) == verdict(other)
        assert strict_bundle(load(text_of(other.net, other), "f")) == other


@pytest.mark.parametrize("name, place", [("missing", 1), ("end-fact", 0), ("entered", 1), ("no-twin", 0)])
def test_what_is_refused_is_opened_to_be_found(name: str, place: int) -> None:
    """`--mend` puts `?` in the place of the node in an entry, or of `first`, and finds it anew."""
    pytest.importorskip("scipy")
    from hurleyoak.search.finding import find
    from hurleyoak.search.mending import _open, openings

    broken = bundle_at(EXAMPLES / "rejected" / f"first-{name}.json")
    for drafts in islice(openings(broken, verdict(broken)), place + 1):
        found = find(_open(load(broken.line(), "f"), broken, drafts), 20.0, 0.0, 1)
    assert found.bundle is not None and verdict(found.bundle) == "certified 3"


def test_refused_json() -> None:
    for value, path, why in (
        (["first"], "", "kind"),
        (["first", 1], "/1", "kind"),
        (["first", [2, 1]], "/1/1", "range"),
        (["first", [70000]], "/1/0", "range"),
    ):
        with pytest.raises(FormatFault) as fault:
            node_of(value, "")
        assert (fault.value.path, fault.value.why) == (path, why)


@pytest.mark.parametrize(
    "old, new, told",
    [
        (
            "by [2 + 2 -> 4 + 0]",
            "by [1 + 1 -> 2 + 0]",
            "expected `by [2 + 2 -> 4 + 0]:`, the next case of `first {4}`",
        ),
        ("by [2 + 2 -> 4 + 0]", "by [2 + 1 -> 4 + 0]", "is no move of this leaf"),
        ("    starts: lin starts{4}\n", "", "expected `starts:`, the next case of `first {4}`"),
    ],
)
def test_texts_that_are_refused(old: str, new: str, told: str) -> None:
    text = FLOCK.read_text()
    assert old in text
    with pytest.raises(Exception) as fault:
        load(text.replace(old, new), "f")
    assert told in str(fault.value)


def test_what_is_explained() -> None:
    bundle = bundle_in(FLOCK)
    told = explain(load(FLOCK.read_text(), "f"), bundle, "certified 3")
    text = drawn(told)
    assert "to show: nobody can come into {4} first, as each move into it needs agents that aren't there" in text
    assert "`2 + 2 -> 4 + 0` needs two agents in 2, with nobody in {4} before" in text
    nodes = explanation_value(told)["leaves"][0]["false"]
    assert nodes[2]["label"] == "by [2 + 2 -> 4 + 0]" and nodes[2]["facts"][0][0] == 0
    assert nodes[1]["about"] and nodes[2]["words"].startswith("lin ")
    no_twin = FLOCK.read_text().replace("by [2 + 2 -> 4 + 0]: lin", "by [2 + 2 -> 4 + 0]:\n      twin 2\n      lin")
    loaded = load(no_twin, "f")
    assert "before a set is entered every move may be possible still" in drawn(
        explain(loaded, strict_bundle(loaded), "rejected leaf 0 false 2 no-twin")
    )


def test_proofs_are_joined() -> None:
    """Beside another leaf, with a variable more: facts of entries are found again by their names."""
    one = bundle_in(TOWER)
    both = joined("and", negated(one), bundle_in(EXAMPLES / "majority" / "majority.pop"), {})
    assert verdict(both) == second(both.value()) and verdict(both).startswith("certified")


def found_in(loaded: Loaded, small: float = 0.3) -> Bundle | None:
    """What `find` finds of an input."""
    pytest.importorskip("scipy")
    from hurleyoak.search.finding import find

    return find(loaded, 60.0, small, jobs=1).bundle


@pytest.mark.parametrize("path", FILES, ids=lambda path: f"{path.stem}")
def test_they_are_found_again(path: Path) -> None:
    bundle = bundle_in(path)
    found = found_in(LoadedNet("f", bundle.net, bundle.pred, [bundle.proof[0].pred]))
    line = path.with_suffix(".expected").read_text().strip()
    assert found is not None and second(found.value()) == line and verdict(found) == line.split("\n")[0]
    assert len(found.proof[0].tree(False)) <= len(bundle.proof[0].tree(False))


def test_a_saved_proof_has_the_ends_of_lines_of_its_text() -> None:
    text = FLOCK.read_text().replace("\n", "\r\n")
    made = with_proof(text.split("layer ")[0], bundle_in(FLOCK))
    assert made.count("\n") == made.count("\r\n") > 20 and strict_bundle(load(made, "f")) == bundle_in(FLOCK)


def test_a_member_of_a_family_with_what_is_assumed() -> None:
    """Sets of states that are numbers stand in two pairs of braces."""
    text = FLOCK.read_text().replace("computes  x >= 4", "computes  x >= {c}").replace("{4}", "{{4}}")
    family = "family c in 4..5\nassume x + y >= 3\n" + text
    four, five = (load_member(family, {"c": c}, "f") for c in (4, 5))
    assert verdict(strict_bundle(four)) == "certified 3" and not four.meets((1, 1)) and four.meets((2, 1))
    assert verdict(strict_bundle(five)) == "rejected leaf 0 false 2 not-closed"
    assert strict_bundle(four).proof == bundle_in(FLOCK).proof


def test_what_is_written_is_kept() -> None:
    """An entry, a sum of it, or the tree of one is left open."""
    for old, new in (
        ("by [3 + 3 -> 4 + 3]: trap {2}", "by [3 + 3 -> 4 + 3]: ?"),
        ("      leaves: lin -never[4 + 2 -> 4 + 4] + leaves{2}", "      leaves: lin ?"),
    ):
        lines = TOWER.read_text().split("\n")
        at = next(i for i, line in enumerate(lines) if old in line)
        lines[at] = lines[at].replace(old, new)
        if new.endswith("?") and "by" in new:
            del lines[at + 1 : next(i for i in range(at, len(lines)) if "starts: lin" in lines[i])]
        loaded = load("\n".join(lines), "f")
        found = found_in(loaded)
        assert found is not None and verdict(found) == "certified 3"


def test_nothing_wrong_is_shown() -> None:
    """Changes of protocols that need `first`: what gets a tree for both values is right in small crowds."""
    pytest.importorskip("scipy")
    from hurleyoak.search.explore import explore
    from hurleyoak.search.limits import clock
    from hurleyoak.search.treefinder import find_deeper

    rng = random.Random(3)
    wrong = 0
    for turn in range(60):
        value = json.loads(json.dumps(VALUES[turn % 3]))
        leaf_value = value["net"]["leaves"][0]
        for _ in range(rng.choice([1, 2])):
            rng.choice(leaf_value["moves"])[rng.choice([2, 3])] = rng.randrange(len(leaf_value["states"]))
        bundle = bundle_of(value)
        leaf, tree = bundle.net.leaves[0], read_predicate(bundle.pred, bundle.net.names)
        flaw, _ = explore(leaf, tree, 6, 0.5)
        if flaw is None:
            continue
        wrong += 1
        trees = [find_deeper(leaf, tree, b, None, clock() + 0.6, 0.0) for b in (True, False)]
        ends_wrong = flaw.kind == "wrong"
        assert not ends_wrong or None in trees, value
    assert wrong > 20
