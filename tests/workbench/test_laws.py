"""Chances and orders of moves: read, written, drawn, and held against exact distributions."""
from __future__ import annotations

from collections import Counter
from fractions import Fraction
from pathlib import Path

import pytest

from hurleyoak.faults import InputFault
from hurleyoak.protocol.reactions import Reactions, leaf_outcomes
from hurleyoak.show.netdrawing import arrow_texts
from hurleyoak.simulation.batches import Batcher
from hurleyoak.simulation.simulation import Simulation
from hurleyoak.text.files import load
from hurleyoak.text.writer import text_of

from .conftest import EXAMPLES, needs_program
from .test_commands import pop

HEAD, FOOT = "inputs x: A  y: B\n", "yes A a\n"
APPROXIMATE = EXAMPLES / "approximate-majority/approximate-majority.pop"


def part(text: str) -> Fraction:
    """A chance."""
    return Fraction(text)


@pytest.mark.parametrize(
    "moves, both, outcomes",
    [
        (["A + B -> a + b"], "AB", {"ab": "1"}),
        (["A + B -> a + b @ 0.3"], "AB", {"ab": "0.3", "AB": "0.7"}),
        (["A + B -> a + b @ 0.3"], "BA", {"ba": "0.3", "BA": "0.7"}),
        (["A + B -> a + b @ 1/3", "A + B -> b + b"], "AB", {"ab": "1/3", "bb": "2/3"}),
        (["A + B -> a + b @ 1/2", "A + B -> b + b", "B + A -> a + a"], "BA", {"ba": "1/2", "bb": "1/4", "aa": "1/4"}),
        (["A + B -> A + B @ 0.9", "A + B -> a + b"], "AB", {"AB": "0.9", "ab": "0.1"}),
        (["A , B -> a , b"], "AB", {"ab": "1"}),
        (["A , B -> a , b"], "BA", None),
        (["A , A -> a , b @ 0.5"], "AA", {"ab": "0.5", "AA": "0.5"}),
        (["A , B -> a , b @ 0.25", "A + B -> b + b"], "BA", {"bb": "1"}),
    ],
)
def test_outcomes(moves: list[str], both: str, outcomes: dict[str, str] | None) -> None:
    net = load(HEAD + "\n".join([*moves, "a + b -> b + b"]) + "\n" + FOOT, "f").net
    leaf = net.leaves[0]
    number = {name: q for q, name in enumerate(leaf.states)}
    made = leaf_outcomes(leaf).get((number[both[0]], number[both[1]]))
    told = None if made is None else {leaf.states[r] + leaf.states[s]: chance for (r, s), chance in made}
    wanted = None if outcomes is None else {name: part(chance) for name, chance in outcomes.items()}
    assert told == wanted
    again = load(text_of(net), "g").net
    assert again.value() == net.value() and again.leaves[0].laws == leaf.laws


@pytest.mark.parametrize(
    "move, told",
    [
        ("A + B -> a + b @", "a chance above 0"),
        ("A + B -> a + b @ 0", "a chance above 0"),
        ("A + B -> a + b @ 1.5", "a chance above 0"),
        ("A + B -> a + b @ 1/0", "a chance above 0"),
        ("A + B -> a + b @ 0.3.1", "a chance above 0"),
        ("A + B -> a + b @ 0.6\nB + A -> b + b @ 0.5", "more than 1 in all"),
        ("A + B -> a + b @ 1\nB + A -> b + b", "of 1 and one without"),
    ],
)
def test_faults(move: str, told: str) -> None:
    with pytest.raises(InputFault, match=told):
        load(f"{HEAD}{move}\n{FOOT}", "f")


def test_one_meeting_has_its_chance() -> None:
    """Of A, A and B: the pairs by initiator and responder are AA, AB and BA, each with a third."""
    text = HEAD + "A , B -> A , a @ 0.25\nA , B -> b , B\nA + A -> a + A @ 0.1\n" + FOOT
    net, seen, runs = load(text, "f").net, Counter[str](), 20_000
    for seed in range(runs):
        run = Simulation(net, (2, 1), seed)
        run.burst(10**6, 1)
        seen["".join(run.reactions.name(word) * k for word, k in run.crowd().items())] += 1
    exact = {"AAB": 1 / 3 + 0.9 / 3, "AAa": 0.25 / 3, "ABb": 0.75 / 3, "ABa": 0.1 / 3}
    assert {"".join(sorted(name)) for name in seen} == {"".join(sorted(name)) for name in exact}
    found = {"".join(sorted(name)): k for name, k in seen.items()}
    square = sum((found["".join(sorted(name))] - runs * part_) ** 2 / (runs * part_) for name, part_ in exact.items())
    assert square < 16.3  # chi-square with 3 degrees: above it once in a thousand


def test_batches_take_chances_and_orders(monkeypatch: pytest.MonkeyPatch) -> None:
    """20,000 agents, half A, 1,000 meetings: AB and BA are a quarter of them each, of which a fifth changes one
    way."""
    net = load(HEAD + "A , B -> A , a @ 0.2\n" + FOOT, "f").net
    changes = []
    for seed in range(60):
        run = Simulation(net, (10_000, 10_000), seed)
        batcher = Batcher(run)
        monkeypatch.setattr(batcher, "pays", lambda most: True)
        assert batcher.burst(10**9, 1_000) and run.changes <= run.meetings
        assert run.crowd()[run.words[run.numbers[(net.leaves[0].states.index("a"),)]]] == run.changes
        changes.append(run.changes / run.meetings)
    assert abs(sum(changes) / 60 - 0.05) < 0.004


def test_approximate_majority_is_won_by_either_side_alike() -> None:
    net = load(APPROXIMATE.read_text(), "f").net
    won = Counter[bool | None]()
    for seed in range(300):
        run = Simulation(net, (30, 30), seed)
        while not run.ended:
            run.burst(10**6)
        won[run.output] += 1
    assert abs(won[True] - won[False]) < 58 and won[None] == 0  # 3.3 standard deviations


def test_a_row_of_the_table_says_roles_and_chances() -> None:
    leaf = load(HEAD + "A , B -> A , a @ 0.25\nA + A -> a + A\n" + FOOT, "f").net.leaves[0]
    number = {name: q for q, name in enumerate(leaf.states)}
    texts = arrow_texts(leaf)
    assert texts[number["B"], number["a"]] == "A first @ 0.25" and texts[number["A"], number["a"]] == "A"
    assert Reactions(load(HEAD + "A , B -> A , a\n" + FOOT, "f").net).reacts((1,), (0,))


@needs_program
def test_what_can_not_be_certified_is_said(tmp_path: Path) -> None:
    told = "a certificate speaks of every choice"
    for words, said in (
        (["find", str(APPROXIMATE), "x > y"], True),
        (["net", str(APPROXIMATE)], True),
        (["simulate", str(APPROXIMATE), "x=30", "y=10"], False),
        (["sweep", str(APPROXIMATE), "x=10..40*2", "y=5", "--runs", "2"], False),
        (["draw", str(APPROXIMATE), "--text"], False),
    ):
        assert (told in pop(*words).stderr) == said, words
    refused = pop("sweep", str(APPROXIMATE), "x=10", "y=5", "--by", "run", "--predicate", "x > y", "--runs", "1")
    assert refused.returncode != 0
