"""Large programs are solved with few columns: what comes of it is what all columns give."""
from __future__ import annotations

import pytest

pytest.importorskip("scipy")

import numpy as np  # noqa: E402

from bench.finder import protocols as p  # noqa: E402
from hurleyoak.proof.items import Cases  # noqa: E402
from hurleyoak.search.columns import Columns, Program  # noqa: E402
from hurleyoak.search.highs import FOUND, matrix_of  # noqa: E402
from hurleyoak.search.sets import Sets  # noqa: E402

WIDTH, HEIGHT, ALWAYS = 900, 12, 3


def program(seed: int) -> Program:
    """A program of which some seeds can be met and others can't."""
    rng = np.random.default_rng(seed)
    count = 4 * WIDTH
    rows, columns = rng.integers(0, HEIGHT, count), rng.integers(0, WIDTH, count)
    matrix = matrix_of(rows, columns, rng.integers(-3, 3, count).astype(float), HEIGHT, WIDTH)
    low = rng.integers(-3, 30, HEIGHT).astype(float)
    most = rng.integers(0, 3, WIDTH) / (4.0 if seed % 2 else 400.0)
    return Program(rng.integers(1, 9, WIDTH) / 2, matrix, low, low + seed % 3, np.zeros(WIDTH), most)


@pytest.mark.parametrize("seed", range(30))
def test_few_columns_give_what_all_give(seed: int) -> None:
    made = program(seed)
    few, whole = Columns(ALWAYS, WIDTH).best(made), made.solved()
    assert few.status == whole.status
    if few.status == FOUND:
        assert abs(made.cost @ few.point - made.cost @ whole.point) < 1e-5


def test_some_can_be_met_and_others_not() -> None:
    assert len({program(seed).solved().status for seed in range(30)}) == 2


def test_a_least_set_is_the_one_of_single_steps() -> None:
    cases = Cases(p.flock(6).net.leaves[0])
    sets, rng = Sets(cases), np.random.default_rng(1)
    for turn in range(60):
        point = (rng.random(cases.variables) < 0.3).astype(float)
        taken, word = sets.taken(point), ("trap", "siphon")[turn % 2]
        empty = set(np.nonzero(sets.crowd(point) == 0)[0].tolist())
        inside = empty if word == "trap" else set(range(cases.states)) - sets.started(point)
        most = sets.greatest(word, inside, taken)
        if not sets.breaks(word, most, point, taken):
            continue
        order = rng.permutation(cases.states).tolist()
        by_steps = most
        for q in order:
            less = sets.greatest(word, by_steps - {q}, taken)
            if q in by_steps and sets.breaks(word, less, point, taken):
                by_steps = less
        assert sets.least(word, most, order, point, taken) == by_steps
