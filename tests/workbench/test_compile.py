"""Succinct leaves: certified by the program, and right in all small crowds, at the edge of their constants."""
from __future__ import annotations

import json
import os
import random
from pathlib import Path
from typing import Iterator

import pytest

from hurleyoak.compiler.drafts import NotBuilt
from hurleyoak.compiler.groups import groups_of
from hurleyoak.compiler.ownnames import with_names
from hurleyoak.compiler.whole import Helpers, Kind, atoms_of, compiled
from hurleyoak.compiler.worths import worths_of
from hurleyoak.engine import program
from hurleyoak.engine.compiling import BY_CHECK, BY_THEOREM, Way, make_bundle
from hurleyoak.proof.bundles import bundle_of, start_crowd
from hurleyoak.proof.checking import verdict
from hurleyoak.protocol.nets import Leaf, Net
from hurleyoak.show.netdrawing import DRAWN_STATES, dot_text, table_text
from hurleyoak.protocol.naming import PLAIN
from hurleyoak.text.files import load_path
from hurleyoak.text.loaded import strict_bundle
from hurleyoak.text.writer import text_of, with_worths
from hurleyoak.protocol.predicatereader import read_predicate
from hurleyoak.protocol.predicates import And, Less, Predicate, Rest, atom_of, value_at

from .conftest import TOP, needs_program

NAMES = ("w", "x", "y", "z")
ATOMS = int(os.environ.get("WORKBENCH_ATOMS", "60"))
PREDICATES = int(os.environ.get("WORKBENCH_PREDICATES", "40"))
COMBINATIONS = max(3, ATOMS // 20)
CROWD_LIMIT = 20_000
SIGNS = ("<", "<=", ">", ">=", "=", "!=")


def random_atom(rng: random.Random) -> Predicate:
    """An atom of one to four variables, of any size that the grammar has, or a congruence."""
    great = 1 << rng.randint(0, rng.choice([1, 1, 2, 5, 31]))
    count = rng.randint(1, len(NAMES))
    coefficients = tuple(
        rng.choice([rng.randint(-great, great), 1, -1, great, -great, great - 1]) for _ in range(count)
    )
    if rng.random() < 0.2:
        modulus = rng.choice([rng.randint(2, 12), rng.randint(2, 40), rng.randint(2, 200)])
        return Rest(coefficients, modulus, rng.randrange(modulus))
    if rng.random() < 0.3:
        coefficients = tuple(abs(a) for a in coefficients)
    most = rng.choice([2 * great, 8 * great, 1 << 40 if great > 1 << 20 else 100])
    bound = rng.choice([rng.randint(-most, most), most, -most, 0, 1])
    return atom_of(coefficients, rng.choice(SIGNS), max(1 - (1 << 40), min((1 << 40) - 1, bound)))


def variables_of(tree: Predicate) -> tuple[str, ...]:
    """As many variables as the atoms have."""
    return NAMES[: len(atoms_of(tree)[0].coefficients)]


def reached(leaf: Leaf, start: list[int]) -> Iterator[tuple[int, ...]]:
    """The terminal crowds that can be reached."""
    seen = {tuple(start)}
    todo = [tuple(start)]
    while todo:
        crowd = todo.pop()
        ends = True
        for p, q, r, s in leaf.moves:
            if crowd[p] >= 1 + (p == q) and crowd[q]:
                ends = False
                after = list(crowd)
                for state, by in ((p, -1), (q, -1), (r, 1), (s, 1)):
                    after[state] += by
                if tuple(after) not in seen:
                    seen.add(tuple(after))
                    todo.append(tuple(after))
        if ends:
            yield crowd
        if len(seen) > CROWD_LIMIT:
            return


def ends_right(net: Net, counts: tuple[int, ...], value: bool) -> None:
    """Each terminal crowd of each leaf agrees; with one leaf, on the value."""
    assert len(net.leaves) == 1
    leaf = net.leaves[0]
    for crowd in reached(leaf, start_crowd(leaf, counts)):
        outputs = {leaf.outputs[q] for q, k in enumerate(crowd) if k}
        assert outputs == {value}, (counts, crowd)


@pytest.mark.parametrize("seed", range(ATOMS))
def test_a_random_atom_has_a_valid_proof(seed: int) -> None:
    """With all six signs, by the workbench's own reading."""
    tree = random_atom(random.Random(f"atom {seed}"))
    assert verdict(compiled(tree, variables_of(tree)).bundle).startswith("certified ")


@needs_program
@pytest.mark.parametrize("seed", range(ATOMS))
def test_a_random_atom_is_certified(seed: int) -> None:
    """By the program."""
    tree = random_atom(random.Random(f"program {seed}"))
    line = compiled(tree, variables_of(tree)).bundle.line()
    assert program.check(line).first_line.startswith("certified ")


@needs_program
@pytest.mark.parametrize("seed", range(COMBINATIONS))
def test_a_combination_is_certified(seed: int) -> None:
    """Two to four atoms with `&&`, `||` and `!`; the same atom has one leaf."""
    rng = random.Random(f"combination {seed}")
    texts = [
        f"{rng.randint(1, 9)}*x - {rng.randint(1, 9)}*y < {rng.randint(-50, 50)}",
        f"x + {rng.randint(1, 5)}*y >= {rng.randint(1, 99)}",
        f"x + y = {rng.randint(0, 3)} mod {rng.randint(4, 30)}",
        "x - y < 1",
    ]
    chosen = [rng.choice(("", "!")) + f"({rng.choice(texts)})" for _ in range(rng.randint(2, 4))]
    text = chosen[0]
    for part in chosen[1:]:
        text = f"({text} {rng.choice(('&&', '||'))} {part})"
    out = compiled(read_predicate(text, ["x", "y"]), ["x", "y"])
    assert len(out.kinds) == len(set(part.pred for part in out.bundle.proof))
    assert program.check(out.bundle.line()).first_line.startswith("certified ")


def random_text(rng: random.Random, names: str) -> str:
    """A comparison or a congruence in the grammar, with coefficients up to 2^31 and bounds up to 2^39."""
    great = 1 << rng.choice((1, 2, 3, 5, 8, 12, 20, 31))
    terms = [(rng.randint(1 - great, great - 1), name) for name in names]
    total = " + ".join(f"{a}*{name}" for a, name in terms).replace("+ -", "- ")
    if rng.random() < 0.2:
        modulus = rng.choice((2, 3, 5, 7, 10, 16, 33, 60, 199))
        return f"{total} = {rng.randrange(modulus)} mod {modulus}"
    most = 1 << rng.choice((1, 3, 6, 10, 20, 31, 39))
    return f"{total} {rng.choice(SIGNS)} {rng.randint(-most, most)}"


@needs_program
@pytest.mark.parametrize("seed", range(PREDICATES))
def test_a_random_predicate_is_certified_and_settles_right(seed: int) -> None:
    """Of one to three atoms and one to four variables: certified, tame, and `settle` ends as `eval` says."""
    rng = random.Random(f"predicate {seed}")
    names = "xyzw"[: rng.randint(1, 4)]
    text = random_text(rng, names)
    for _ in range(rng.choice((0, 0, 0, 1, 2))):
        text = f"({text}) {rng.choice(('&&', '||'))} {rng.choice(('', '!'))}({random_text(rng, names)})"
    line = compiled(read_predicate(text, list(names)), list(names)).bundle.line()
    claim = program.check(line).claim
    assert claim.is_certified and claim.is_tame, text
    crowd = f"crowd {' '.join(f'{name}={rng.randint(2, 20)}' for name in names)}\n"
    value = program.ask(["eval"], f"vars {' '.join(names)}\n{text}\n{crowd}").first_line
    assert program.ask(["settle"], f"{line}\n{crowd}").text.splitlines()[-1] == f"verdict {value}", text


@pytest.mark.parametrize("a", range(-2, 4))
@pytest.mark.parametrize("bound", (-3, 0, 1, 4))
def test_small_crowds_end_right(a: int, bound: int) -> None:
    """All inputs of up to five agents of `a*x + b*y < bound`, whatever meetings come."""
    for b in (-3, -1, 2):
        tree = Less((a, b), bound)
        net = compiled(tree, ["x", "y"]).bundle.net
        for x in range(6):
            for y in range(6 - x):
                if x + y + len(net.leaves[0].helpers) >= 2:
                    ends_right(net, (x, y), value_at(tree, (x, y)))


@pytest.mark.parametrize("modulus", (2, 5, 9, 21))
def test_small_remainders_end_right(modulus: int) -> None:
    """All inputs of up to four agents, of leaders and of digits."""
    tree = Rest((1, 3), modulus, 1)
    net = compiled(tree, ["x", "y"]).bundle.net
    for x in range(4):
        for y in range(4 - x):
            if x + y + len(net.leaves[0].helpers) >= 2:
                ends_right(net, (x, y), value_at(tree, (x, y)))


@needs_program
@pytest.mark.parametrize(
    "text, inside, outside",
    [
        ("x - y < 1000", (1499, 500), (1500, 500)),
        ("2147483648*x - 2147483647*y < 1099511627776", (599, 88), (600, 88)),
        ("x >= 1000", (1000, 0), (999, 0)),
        ("x + 2*y = 7 mod 200", (201, 3), (202, 3)),
    ],
)
def test_settle_agrees_at_the_edge(text: str, inside: tuple[int, int], outside: tuple[int, int]) -> None:
    """`settle` of the bundle and `eval` of the predicate say the same on both sides."""
    line = make_bundle(["x", "y"], text, Way.SUCCINCT).answer.text
    for counts, value in ((inside, "true"), (outside, "false")):
        crowd = f"crowd x={counts[0]} y={counts[1]}\n"
        assert program.ask(["eval"], f"vars x y\n{text}\n{crowd}").first_line == value
        assert program.ask(["settle"], line + crowd).text.splitlines()[-1] == f"verdict {value}"


def test_sizes_are_those_of_the_construction() -> None:
    """3k + 7 states for `x - y < 2^k`, 13k + 11 moves and k + 2 helpers; flocks without helpers where all can do
    without."""
    for k in (5, 20, 40):
        out = compiled(Less((1, -1), 1 << k), ["x", "y"])
        leaf = out.bundle.net.leaves[0]
        assert (len(leaf.states), len(leaf.moves), out.helpers) == (3 * k + 7, 13 * k + 11, k + 2)
        worth = worths_of(leaf)
        assert worth is not None and worth["P"] == 1 << k
    out = compiled(read_predicate("x >= 1000 || y >= 77", ["x", "y"]), ["x", "y"])
    assert out.kinds == (Kind.ALONE, Kind.ALONE) and out.helpers == 0


def test_limits_are_said() -> None:
    """What can't be built is refused with its states, and with the coefficient that costs them."""
    names = [f"x{i}" for i in range(16)]
    wide: Predicate = Less(tuple((1 << 31) - 32 + i if i % 2 else i + 1 - (1 << 31) for i in range(16)), 1 << 40)
    for bound in range(1, 5):
        wide = And(wide, Less((1, *[0] * 15), bound))
    with pytest.raises(NotBuilt, match="states, and a leaf of 5 has at most 256; the coefficient 21474836"):
        compiled(wide, names)
    with pytest.raises(NotBuilt, match="has no leaf without helpers"):
        compiled(Less((1, -1), 1000), ["x", "y"], Helpers.NONE)
    with pytest.raises(NotBuilt, match="multiplier"):
        compiled(Less((-1,), -(1 << 40)), ["x"])


@needs_program
def test_the_smaller_net_is_taken() -> None:
    """The program's own where it is as small; what the program refuses for another cause stays refused."""
    assert "certified" in make_bundle(["x", "y"], "x - y < 1000").told[-1]
    assert make_bundle(["x"], "x < 1 &&").answer.status == program.REFUSED
    assert make_bundle(["x", "y"], "x - y < 1", Way.PLAIN).told == []
    assert make_bundle(["x"], "x = 1 mod 3").told[-1] == BY_THEOREM.format("compile")
    assert make_bundle(["x"], "x >= 1000").told[-1] == BY_THEOREM.format("compile_succinct")


@needs_program
@pytest.mark.parametrize("text", ["x = 1 mod 199", "5*x >= 1000", "x >= 1", "x - y < 20", "7*x + 11*y = 3 mod 60"])
def test_succinct_is_never_larger(text: str) -> None:
    """Than the smallest, which has other leaves to choose from."""

    def states(way: Way) -> int:
        net = bundle_of(json.loads(make_bundle(["x", "y"], text, way).answer.first_line)).net
        return sum(len(leaf.states) for leaf in net.leaves)

    assert states(Way.SUCCINCT) <= states(Way.SMALLEST)


@needs_program
@pytest.mark.parametrize("text", ["x - y < 10", "7*x - 5*y - 5*z < 3", "x - y < 2 && 6*x - 9*y < 4", "x = 1 mod 60"])
@pytest.mark.parametrize("way", [Way.SUCCINCT, Way.SMALLEST, Way.QUICK])
def test_a_text_has_names_that_need_no_table(text: str, way: Way, tmp_path: Path) -> None:
    """The program's leaf of powers has numbers for names: a `.pop` file says what they are worth, and is certified."""
    made = make_bundle(["x", "y", "z"], text, way)
    bundle = with_names(bundle_of(json.loads(made.answer.first_line)))
    written = tmp_path / "made.pop"
    written.write_text(with_worths(bundle.net, text_of(bundle.net, bundle)))
    read = strict_bundle(load_path(str(written)))
    assert read == bundle and program.check(read.line()).claim.is_certified
    for leaf in read.net.leaves:
        assert groups_of(leaf)
        assert sum(not PLAIN.fullmatch(name) for name in leaf.states) <= len(leaf.inputs)
    assert written.read_text().startswith("# ")


@needs_program
def test_names_of_the_program_say_its_worths() -> None:
    """Two variables of one coefficient have their own tokens, and one with nothing to give off next has a mark."""
    line = program.ask(["compile", "--succinct"], "vars x y z\n5*x + 5*y - 3*z < 9\n").first_line
    leaf = with_names(bundle_of(json.loads(line))).net.leaves[0]
    worth = worths_of(leaf)
    assert worth is not None and {"x.5", "x.1", "x.1'", "y.5", "z.-3"} <= set(leaf.states)
    assert (worth["x.5"], worth["x.1'"], worth["z.-3"], worth["P"]) == (5, 1, -3, 16)


@needs_program
def test_quick_nets_have_callers() -> None:
    """Where the program's net is smaller too."""
    for text, callers in (("x = 1 mod 3", {"F", "T"}), ("x - y < 1", {"0F", "0T"})):
        made = make_bundle(["x", "y"], text, Way.QUICK)
        leaf = bundle_of(json.loads(made.answer.first_line)).net.leaves[0]
        assert callers <= set(leaf.states) and made.claim.is_tame and BY_CHECK in made.told


@pytest.mark.parametrize(
    "text, first", [("x - y < 6", "worth -8"), ("2*x - 3*y < 1000", "worth -1024"), ("x + y = 7 mod 60", "hub")]
)
def test_states_are_grouped_by_their_worth(text: str, first: str) -> None:
    """Each state stands in one group; so `draw` shows them."""
    net = compiled(read_predicate(text, ["x", "y"]), ["x", "y"]).bundle.net
    groups = groups_of(net.leaves[0])
    assert sorted(q for states in groups.values() for q in states) == list(range(len(net.leaves[0].states)))
    assert next(iter(groups)) == first
    table = table_text(net)
    assert (
        all(f"# {told}" in table for told in groups)
        and f'label="{first}"' in dot_text(net, "", "")
        or len(net.leaves[0].states) > DRAWN_STATES
    )
    assert not groups_of(load_path(str(TOP / "examples/majority/majority.pop")).net.leaves[0])
