"""How soon a certified crowd comes to rest is told where the program says so, and else which moves hinder a proof."""
from __future__ import annotations

import random
import subprocess
from pathlib import Path

import pytest

from bench.finder import soon
from hurleyoak.engine.claims import claimed
from hurleyoak.engine.program import check
from hurleyoak.library.results import Verdict
from hurleyoak.proof.bundles import Bundle, Layer
from hurleyoak.proof.joining import joined
from hurleyoak.proof.tame import Way, fights, first_fight, is_tame, is_tame_bundle
from hurleyoak.protocol.nets import Leaf
from hurleyoak.search.limits import clock
from hurleyoak.search.taming import tame_layers
from hurleyoak.proof.checking import layer_fault
from hurleyoak.show.soon import soon_told
from hurleyoak.simulation.chains import longest
from hurleyoak.text.files import load, load_path
from hurleyoak.text.loaded import strict_bundle

from .conftest import EXAMPLES, TOP, bundle_at, example_paths, needs_program
from .test_compile import random_atom, variables_of

BIN = TOP / "bin" / "pop"
ONE = "each leaf has one layer, so in every run of n agents at most"
SOON = "random meetings settle n agents within K n n (n - 1) / 2 on average, K ="
TRIES = 25
MORE = 2  # of the bound of the layers that are found, where those of a compiled net are made by hand
SILENT = [path for path in example_paths() if path.parent.name not in ("rejected", "stable")]
WILD = ["equal", "head-start", "majority-with-ties", "mod-three", "twice", "unequal"]


def example(name: str) -> Bundle:
    """The bundle of an example."""
    return bundle_at(EXAMPLES / name / "bundle.json")


def pop(*words: str) -> str:
    """What is printed, errors among it."""
    run = subprocess.run([str(BIN), *words], capture_output=True, text=True, check=False)
    return run.stdout + run.stderr


@pytest.mark.parametrize(
    "name, text, says",
    [
        ("epidemic", "certified 1\ntame\n", [f"{ONE} n meetings change anything", f"{SOON} 1: proved"]),
        ("flock", "certified 2\ntame\n", [f"{ONE} 2 n meetings change anything", f"{SOON} 2: proved"]),
        ("remainder", "certified 3\ntame\n", [f"{SOON} 3: proved"]),
        ("remainder", "certified 3\n", []),
        ("remainder", "if x >= 1: certified 3\ntame\n", []),
        ("epidemic", "rejected predicate\n", []),
    ],
)
def test_what_the_program_proved(name: str, text: str, says: list[str]) -> None:
    """Only where it says `tame`; the bound of one layer is left out where it is 1."""
    assert soon_told(example(name), claimed(text)) == says


def test_chances_are_no_part_of_it() -> None:
    """A net has no chances: where the file has some, the bound is not that of its own meetings."""
    text = (EXAMPLES / "epidemic" / "epidemic.pop").read_text()
    loaded = load(text.replace("-> I + I\n", "-> I + I @ 0.001\n", 1), "it")
    told = soon_told(strict_bundle(loaded), claimed("certified 1\ntame\n"))
    assert "random meetings of the net, which has no chances and orders, settle" in told[1]


def test_two_moves_that_fight() -> None:
    """Of majority, whose chain of 9 agents is solved; of a bundle of two leaves the one is named."""
    (told,) = soon_told(example("majority"), claimed("certified 2\n"))
    assert told == (
        "`B + a -> B + b` of a later layer raises the weights that `A + b -> A + a` of layer 0 lowers, while both are"
        " possible. So it may take exponential time: already 84,510 meetings on average at 9 agents, x=5 y=4"
    )
    both = joined("or", example("majority"), example("exactly-one"), {})
    assert soon_told(both, claimed("certified 4\n"))[0].startswith("leaf 0: `")


@pytest.mark.parametrize(
    "moves, layers, way",
    [
        # a later move of the same states has to lower the earlier layer's weights too
        ([(0, 0, 0, 1), (0, 0, 0, 2)], [([0], (1, 0, 0, 0)), ([1], (1, 0, 0, 0))], None),
        ([(0, 0, 0, 1), (0, 0, 0, 2)], [([0], (1, 0, 1, 0)), ([1], (1, 0, 0, 0))], Way.STANDS),
        # A + A is of an earlier layer, but with one A it is not possible
        (
            [(0, 0, 3, 3), (0, 1, 0, 3), (0, 2, 0, 1)],
            [([0], (1, 0, 0, 0)), ([1], (0, 1, 0, 0)), ([2], (0, 0, 1, 0))],
            Way.RAISES,
        ),
        # move 2 wakes move 1, and only a move of the layer between was possible
        (
            [(0, 0, 3, 3), (1, 2, 3, 3), (1, 0, 1, 2), (0, 3, 3, 3)],
            [([1], (0, 1, 1, 0)), ([0], (1, 0, 0, 0)), ([3], (1, 0, 0, 0)), ([2], (1, 0, 0, 0))],
            Way.RAISES,
        ),
    ],
)
def test_small_layers(
    moves: list[tuple[int, int, int, int]], layers: list[tuple[list[int], tuple[int, ...]]], way: Way | None
) -> None:
    """Two moves for the same states, one agent that isn't two, and a raise that nothing excuses."""
    leaf = Leaf(("A", "B", "C", "D"), tuple(moves), (0,), (True,) * 4)
    fight = first_fight(leaf, [Layer(tuple(numbers), weights) for numbers, weights in layers])
    assert (fight and fight.way) == way


def test_waking_up_to_the_layer() -> None:
    """A move of a layer between the two excuses a waking in a valid proof, and not here."""
    leaf = Leaf(("A", "B", "C"), ((0, 1, 2, 2), (2, 2, 1, 1), (0, 2, 0, 1)), (0,), (True,) * 3)
    layers = [Layer((0,), (0, 2, 1)), Layer((1,), (0, 0, 1)), Layer((2,), (0, 0, 1))]
    assert Way.WAKES in {fight.way for fight in fights(leaf, layers)}


def test_layers_of_another_shape_are_not_tame() -> None:
    """What the program is to refuse is no cause for a traceback."""
    (leaf,) = example("majority").net.leaves
    for weights in ((), (1,), (1,) * 9):
        assert not is_tame(leaf, [Layer((0, 0, 99), weights), Layer((1, 2, 3), (0, 1, 0, 1))])


def test_a_large_leaf_is_looked_at_quickly() -> None:
    """32,896 moves in one layer, and in two."""
    states = 256
    moves = tuple((p, q, (p + 1) % states, q) for p in range(states) for q in range(p, states))
    leaf = Leaf(tuple(f"s{q}" for q in range(states)), moves, (0,), (True,) * states)
    weights, numbers, begun = tuple(range(states)), range(len(moves)), clock()
    is_tame(leaf, [Layer(tuple(numbers), weights)])
    is_tame(leaf, [Layer(tuple(numbers)[::2], weights), Layer(tuple(numbers)[1::2], weights[::-1])])
    assert clock() - begun < 10


@pytest.mark.parametrize("seed", range(TRIES))
def test_what_compile_makes_is_tame(seed: int) -> None:
    """Each leaf of the workbench's compiler."""
    from hurleyoak.compiler.whole import compiled

    tree = random_atom(random.Random(f"tame {seed}"))
    assert is_tame_bundle(compiled(tree, variables_of(tree)).bundle)


@pytest.mark.parametrize("path", SILENT, ids=lambda path: f"{path.parent.name}/{path.name}")
def test_layers_that_are_found_are_valid(path: Path) -> None:
    """And tame; where the example's own are tame there are some."""
    bundle = bundle_at(path)
    for leaf, part in zip(bundle.net.leaves, bundle.proof):
        found = tame_layers(leaf, clock() + 20)
        assert found is None or layer_fault(leaf, found) is None and is_tame(leaf, found)
        given = getattr(part, "layers", None)
        if given is not None and layer_fault(leaf, given) is None and is_tame(leaf, given):
            assert found is not None and sum(one.spread for one in found) <= sum(one.spread for one in given) + MORE


@pytest.mark.parametrize(
    "name, agents, meetings", [("majority", 5, 79.8), ("majority", 9, 84_510.2), ("epidemic", 3, 3.0)]
)
def test_exact_chains(name: str, agents: int, meetings: float) -> None:
    """The worst input of few agents. By hand, an epidemic of one in three takes 3/2 meetings, and 3/2 more."""
    found = longest(example(name).net.leaves[0], agents)
    assert found is not None and abs(found.meetings - meetings) < 0.1


def test_the_library_counts_meetings() -> None:
    """K n n (n - 1) / 2 where it is proved."""
    assert Verdict("certified 2", True, 2, tame=True).meetings(10) == 900
    assert Verdict("certified 2", True, 2).meetings(10) is None


@needs_program
@pytest.mark.parametrize("path", SILENT, ids=lambda path: f"{path.parent.name}/{path.name}")
def test_the_program_says_the_same(path: Path) -> None:
    """`tame` below `certified`, where the test here says so."""
    bundle = bundle_at(path)
    answer = check(bundle.line())
    assert answer.claim.is_tame == (answer.claim.is_certified and is_tame_bundle(bundle))


@needs_program
def test_commands() -> None:
    """`explain` says it below the program's line, `find` and `check` below theirs; `find --tame` takes nothing else."""
    assert pop("explain", "examples/epidemic/epidemic.pop").splitlines()[1].startswith(f"# {ONE}")
    assert f"{SOON} 1: proved" in pop("find", "examples/epidemic/net.json", "x >= 1", "--tame")
    assert f"{SOON} 3: proved" in pop("check", "examples/remainder/remainder.pop")
    assert "no tame layers were found" in pop("find", "examples/majority/net.json", "y - x < 0", "--tame")
    assert "exponential time: already 84,510" in pop("explain", "examples/majority/majority.pop")
    assert f"{SOON} 25: proved" in pop("compile", "x - y < 1000")


def test_the_gallery_says_how_soon() -> None:
    """Of each example that is certified: the page's tables are those that are made anew."""
    text = soon.PAGE.read_text()
    assert soon.written(text) == text


@pytest.mark.parametrize("name", WILD)
def test_slow_examples_have_no_tame_layers(name: str) -> None:
    """They take exponential time, by exact chains of few agents."""
    leaf = load_path(str(EXAMPLES / "found" / f"{name}.pop")).net.leaves[0]
    assert tame_layers(leaf, clock() + 20) is None
