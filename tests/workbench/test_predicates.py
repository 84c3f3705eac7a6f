"""Predicates: the reader's faults and canonical texts are the program's, on rows and on seeded texts."""
from __future__ import annotations

import random

import pytest
from hypothesis import given, settings
from hypothesis import strategies as st

from hurleyoak.engine import program
from hurleyoak.protocol.nets import Net, Leaf
from hurleyoak.protocol.predicatereader import read_predicate
from hurleyoak.protocol.predicates import And, Less, Not, Or, Predicate, PredicateFault, Rest, canonical_text, value_at
from hurleyoak.protocol.combining import combined_predicate, leaf_predicates

from .conftest import CHANGES, needs_program

NAMES = ("x", "y")

FAULTS = [
    ("", "syntax 0"),
    ("x", "syntax 1"),
    ("x <", "syntax 3"),
    ("x < y", "syntax 4"),
    ("z < 1", "unknown 0"),
    ("x + z < 1", "unknown 4"),
    ("2147483649*x < 1", "large 0"),
    ("x < 1099511627777", "large 4"),
    ("x <= 1099511627776", "large 5"),
    ("x = 1 mod 1", "large 10"),
    ("x = 1 mod 201", "large 10"),
    ("x < 1 mod 3", "syntax 6"),
    ("x ? 1", "syntax 2"),
    ("(x < 1", "syntax 6"),
    ("x < 1)", "syntax 5"),
    ("!" * 65 + "x < 1", "deep 64"),
    ("(" * 65 + "x < 1" + ")" * 65, "deep 64"),
    ("x < 1 &&", "syntax 8"),
    ("x < - - 1", "syntax 6"),
    ("3 < x", "syntax 2"),
    ("mod < 1", "syntax 0"),
    ("x =! 3", "syntax 3"),
]


@pytest.mark.parametrize("text, fault", FAULTS)
def test_faults(text: str, fault: str) -> None:
    with pytest.raises(PredicateFault) as caught:
        read_predicate(text, NAMES)
    assert f"{caught.value.why} {caught.value.at}" == fault


def asked(text: str) -> str:
    """What `eval` says of a predicate at x=3, y=2."""
    return program.ask(["eval"], f"vars x y\n{text}\ncrowd x=3 y=2\n").first_line


def own(text: str) -> str:
    """The same, by the workbench."""
    try:
        return str(value_at(read_predicate(text, NAMES), (3, 2))).lower()
    except PredicateFault as fault:
        return f"fault: pred {fault.why} {fault.at}"


@needs_program
@pytest.mark.parametrize("text", [text for text, _ in FAULTS])
def test_faults_are_the_program_s(text: str) -> None:
    assert own(text) == asked(text)


@needs_program
def test_seeded_texts_are_read_as_the_program_reads_them() -> None:
    words = [
        "x",
        "y",
        "z",
        "2*",
        "31*",
        "+",
        "-",
        "<",
        "<=",
        ">=",
        ">",
        "=",
        "!=",
        "1",
        "4",
        "mod 3",
        "&&",
        "||",
        "!",
        "(",
        ")",
        " ",
    ]
    for seed in range(CHANGES):
        rng = random.Random(seed)
        base = rng.choice(["x - y < 3", "!(x = 1 mod 3) && y >= 2", "2*x + y != 4 || x > 1"])
        parts = base.split(" ")
        for _ in range(rng.randrange(3)):
            parts[rng.randrange(len(parts))] = rng.choice(words)
        text = " ".join(parts)
        assert own(text) == asked(text), text


def trees() -> "st.SearchStrategy[Predicate]":
    """Trees of predicates over two variables."""
    sums = st.tuples(st.integers(-9, 9), st.integers(-9, 9))
    less = st.builds(Less, sums, st.integers(-99, 99))
    rest = st.integers(2, 9).flatmap(lambda m: st.builds(Rest, sums, st.just(m), st.integers(0, m - 1)))
    return st.recursive(
        st.one_of(less, rest),
        lambda part: st.one_of(st.builds(Not, part), st.builds(And, part, part), st.builds(Or, part, part)),
        max_leaves=8,
    )


@settings(deadline=None)
@given(trees())
def test_canonical_texts_are_read_back(tree: Predicate) -> None:
    assert read_predicate(canonical_text(tree, NAMES), NAMES) == tree


@settings(deadline=None)
@given(trees(), trees())
def test_leaves_get_their_predicates_of_the_combination(one: Predicate, two: Predicate) -> None:
    leaf = Leaf(("A",), (), (0, 0), (True,))
    net = Net(NAMES, (leaf, leaf), (0, 1, "not", "or"))
    assert leaf_predicates(net, combined_predicate(net, [one, two])) == [one, two]
