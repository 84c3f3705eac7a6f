"""Candidates that become counterexamples by an order of their own moves, where all crowds of their input are too
many."""
from __future__ import annotations

from itertools import permutations

import pytest
from hypothesis import given, settings
from hypothesis.strategies import data, integers, lists

from hurleyoak.engine import program
from hurleyoak.proof.bundles import start_crowd
from hurleyoak.protocol.nets import Net
from hurleyoak.search.ordering import ordered

from .conftest import needs_program
from .test_commands import find_without_first, pop
from .test_files import nets

pytest.importorskip("scipy")


def powers(exponent: int, least: int) -> str:
    """Agents that double up to 2^exponent, and then convert all: it says that there are so many."""
    top = 2**exponent
    below = [2**i for i in range(exponent)]
    moves = [f"{k} + {k} -> {2 * k} + 0" for k in below] + [f"{top} + {k} -> {top} + {top}" for k in (0, *below)]
    return "\n".join(["inputs x: 1", *moves, f"yes {top}", f"computes x >= {least}", ""])


TWO = (
    "combine many || odd\nleaf many\n"
    + powers(4, 17)
    + "leaf odd\ninputs x: i\ni + i -> z + e\ni + z -> i + o\ni + e -> i + o\nz + o -> z + e\ne + o -> e + e\nyes i"
    " o\ncomputes x = 1 mod 2\n"
)


@needs_program
@pytest.mark.parametrize(
    "text, told",
    [
        (
            powers(6, 65),
            (
                "at x=64 the predicate `x >= 65` is false, and 126 moves lead to a terminal crowd in which 64 outputs"
                " true"
            ),
        ),
        (
            powers(10, 1025),
            (
                "at x=1024 the predicate `x >= 1025` is false, and 2046 moves lead to a terminal crowd in which 1024"
                " outputs true"
            ),
        ),
        (
            TWO,
            (
                "at x=16 the predicate `x >= 17 || x = 1 mod 2` is false, and 30 moves lead to a terminal crowd in"
                ' which "16/z", "16/e" output true'
            ),
        ),
    ],
    ids=["64 agents", "1024 agents", "two leaves"],
)
def test_a_candidate_s_own_moves_are_played(text: str, told: str) -> None:
    run = pop("find", text=text)
    assert run.returncode == program.REJECTED and run.stderr.startswith(f"the protocol is wrong: {told}\n")
    assert "`pop play` of these meetings printed:" in run.stderr and "\nterminal\nwrong: " in run.stderr


@needs_program
def test_moves_without_an_order_are_told() -> None:
    text = (
        "inputs x: 1  y: 0\n1 + 1 -> 2 + 0\n2 + 2 -> 4 + 0\n4 + 0 -> 4 + 2\n4 + 1 -> 4 + 4\n4 + 2 -> 4 + 4\nyes"
        " 4\ncomputes x >= 4\n"
    )
    run = find_without_first(text)
    assert run.returncode == program.UNDECIDED
    assert (
        "\nNo order of these moves is possible: " in run.stderr
        and "Other moves may lead there\nIt can't be reached: all " in run.stderr
    )


def allowed(net: Net, counts: tuple[int, ...], moves: tuple[int, ...]) -> bool:
    """Whether these moves can be taken one after the other."""
    leaf = net.leaves[0]
    crowd = start_crowd(leaf, counts)
    for t in moves:
        for q, k in zip(leaf.moves[t], (-1, -1, 1, 1)):
            crowd[q] += k
            if crowd[q] < 0:
                return False
    return True


@settings(deadline=None, max_examples=150)
@given(nets(), integers(0, 2), integers(0, 2), data())
def test_an_order_is_found_where_there_is_one(net: Net, first: int, second: int, draw: data) -> None:  # type: ignore[valid-type]
    leaf = net.leaves[0]
    counts = (first, second, *([1] * len(leaf.inputs)))[: len(leaf.inputs)]
    if not leaf.active:
        return
    moves: list[int] = draw.draw(lists(integers(0, len(leaf.active) - 1), max_size=5))  # type: ignore[attr-defined]
    taken = [leaf.active[i] for i in moves]
    order = ordered(leaf, counts, {t: taken.count(t) for t in taken}, 1e12)
    assert order.is_whole and order.is_found == any(allowed(net, counts, one) for one in permutations(taken))
    assert not order.is_found or sorted(order.moves) == sorted(taken) and allowed(net, counts, tuple(order.moves))
