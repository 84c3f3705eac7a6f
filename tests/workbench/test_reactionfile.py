"""Reaction networks: read as nets, refused with a sentence, written and read back."""
from __future__ import annotations

from fractions import Fraction
from pathlib import Path
from time import process_time

import pytest

from hurleyoak.faults import InputFault
from hurleyoak.protocol.reactions import leaf_outcomes
from hurleyoak.text.files import in_volume, load
from hurleyoak.text.reactionfile import network_text

from .conftest import EXAMPLES, needs_program
from .test_commands import pop


@pytest.mark.parametrize(
    "text, moves",
    [
        ("A + B -> 2U", {"AB>UU": 1.0}),
        ("2B -> A + B  # a comment", {"BB>AB": 1.0}),
        ("A + B <-> C + D : 2\n2A -> A + B : 1", {"AB>CD": 1.0, "CD>AB": 1.0, "AA>AB": 0.5}),
        ("(A + B >> 2*U).k(0.5)\nA + B -> 2A : 1.5", {"AB>UU": 0.25, "AB>AA": 0.75}),
        ("inputs x: A  y: B\nA + B -> 2B\nyes B", {"AB>BB": 1.0}),
        ("A + B <-> C + D : 1, 2e0\n2A -> A + B : 1e-1", {"AB>CD": 0.5, "CD>AB": 1.0, "AA>AB": 0.05}),
        ("(A + B | C + D).k(1).r(2)", {"AB>CD": 0.5, "CD>AB": 1.0}),
        ("(A + B | C + D).k(2)", {"AB>CD": 1.0, "CD>AB": 0.5}),
        ("A + B -> 2B : fast\nfast = 3/10\n2B -> A + B : 0.6", {"AB>BB": 0.5, "BB>AB": 1.0}),
    ],
)
def test_networks(text: str, moves: dict[str, float]) -> None:
    net = load(text, "f.crn").net
    for _ in range(2):
        leaf = net.leaves[0]
        found = {
            "".join(sorted(leaf.states[q] for q in both))
            + ">"
            + "".join(sorted(leaf.states[q] for q in made)): float(chance)
            for both, outcomes in leaf_outcomes(leaf).items()
            for made, chance in outcomes
            if made != both
        }
        assert {name: found[name] for name in moves} == moves
        net = load(network_text(net), "g.crn").net


def test_one_reactant() -> None:
    """An agent that begins a meeting changes by itself, whoever is met; its chance depends on the volume."""
    loaded = load("A -> B : 0.25\nA + B -> 2B : 1", "f.crn")
    outcomes = leaf_outcomes(loaded.net.leaves[0])
    assert dict(outcomes[0, 0]) == {(1, 0): Fraction(1, 3), (0, 0): Fraction(2, 3)}
    assert outcomes[0, 1] == [((1, 1), Fraction(2, 3)), ((1, 1), Fraction(1, 3))]
    assert outcomes[1, 0] == [((1, 1), Fraction(2, 3)), ((1, 0), Fraction(1, 3))]
    assert loaded.network is not None and loaded.network.meetings(10, Fraction(9)) == Fraction(3, 2) * 5
    twice = dict(leaf_outcomes(in_volume(loaded, 10, Fraction(18)).net.leaves[0])[0, 0])
    assert twice[1, 0] == Fraction(1, 2)


@pytest.mark.parametrize(
    "text, told",
    [
        ("X -> B + C", "this one has 1 and 2: agents neither come nor go"),
        ("-> B", "this one has 0 and 1: agents neither come nor go"),
        ("A + B + C -> 3A", "one or two reactants, and this one has 3"),
        ("A + B -> C", "this one has 2 and 1: agents neither come nor go"),
        ("A + B -> C + D + D", "this one has 2 and 3"),
        ("A + B -> 2B : k", "the rate `k` has no value"),
        ("k = 1\nk = 2\nA + B -> 2B : k", "has a value already"),
        ("A + B -> 2B : 1, 2", "two rates are for a reaction that goes both ways"),
        ("A + B -> 2B : A*B", "a rate is a number above 0"),
        ("A + B -> 2B : -1", "a rate is a number above 0"),
        ("A + B -> 2B : 1e-30\n2A -> 2B", "numbers with over 18 digits"),
        ("A B", "expected a reaction"),
        ("A + B -> C + D : 0", "a rate is a number above 0"),
        ("A + ? -> C + D", "expected species"),
    ],
)
def test_what_has_no_meaning(text: str, told: str) -> None:
    with pytest.raises(InputFault, match=told):
        load(text, "f.crn")


def test_commands(tmp_path: Path) -> None:
    file = tmp_path / "network.crn"
    made = pop("text", str(EXAMPLES / "epidemic/epidemic.pop"), "--crn")
    assert made.returncode == 0 and "->" in made.stdout
    file.write_text(made.stdout)
    assert pop("net", str(file)).returncode == 0
    assert "I 40" in pop("simulate", str(file), "x=1", "y=39").stdout
    saved = pop("find", str(file), "x >= 1", "--save")
    assert saved.returncode == 1 and "a reaction network" in saved.stderr


@needs_program
def test_commands_of_the_program(tmp_path: Path) -> None:
    """They read a network as the others do."""
    file = tmp_path / "network.crn"
    file.write_text("S + I -> 2I : 0.5\ninputs x: I y: S\nyes I\ncomputes x >= 1\n")
    assert pop("play", str(file), "x=1", "y=1", "0,1").stdout == "I 2\nterminal\n"
    assert pop("eval", str(file), "x=1").stdout == "true\n"
    assert "this leaf has no proof" in pop("check", str(file)).stderr


@pytest.mark.parametrize(
    "line",
    [
        "A + B -> C + D" + " " * 40_000 + "x",
        "A + 2" + " " * 40_000 + "! -> C + D",
        "A + B -> C + D :" + " " * 40_000 + "x",
        "A + B -> C + D" + " :" * 20_000,
    ],
    ids=len,
)
def test_long_rows_of_blanks_are_looked_at_once(line: str) -> None:
    """Such lines are refused, and soon: a square of them would take minutes."""
    start = process_time()
    with pytest.raises(InputFault):
        load(line, "f.crn")
    assert process_time() - start < 1.0


@pytest.mark.parametrize("line", ["\u0662A -> B + B", "999A -> B + B", "A + B -> 2\u0660C"])
def test_what_is_no_number_of_species(line: str) -> None:
    """Digits are those of ASCII, and two agents meet."""
    with pytest.raises(InputFault, match="expected species|reactants, and this one has 999"):
        load(line, "f.crn")
