"""How meetings grow with the crowd: shapes that are known, and protocols of the literature."""
from __future__ import annotations

from math import log, sqrt
from pathlib import Path
from random import Random
from typing import Callable

import pytest

from hurleyoak.simulation.growth import BEYOND, EXPONENTIAL, fits_of, growth_told, power_of, quantile
from hurleyoak.simulation.table import read_csv

from .conftest import EXAMPLES
from .test_commands import pop

# majority with four states and no move for a tie, by which strong agents alone convert (Draief and Vojnovic 2012)
FOUR_STATES = """inputs  x: A  y: B
A + B -> a + b
A + b -> A + a
B + a -> B + b
yes     A a
computes y - x < 0
"""


@pytest.mark.parametrize(
    "name, shape",
    [
        ("n", lambda n: 7 * n),
        ("n log n", lambda n: n * log(n) / 3),
        ("n^2", lambda n: n * n),
        ("n^2 log n", lambda n: 0.2 * n * n * log(n)),
        (EXPONENTIAL, lambda n: 5 * 1.02**n),
        ("1", lambda n: 12),
        ("n^3", lambda n: n**3 / 6),
        ("sqrt n", lambda n: 3 * sqrt(n)),
        ("n log^2 n", lambda n: n * log(n) ** 2 / 2),
        ("n^1.5", lambda n: 4 * n**1.5),
        (BEYOND, lambda n: 2 * 1.01 ** (n * log(n))),
    ],
)
def test_growth_of_known_shapes(name: str, shape: Callable[[float], float]) -> None:
    random = Random(name)
    sizes = [10 * 2**i for i in range(7)]
    fits = fits_of(sizes, [shape(n) * random.uniform(0.96, 1.04) for n in sizes])
    assert fits[0].shape == name and fits[0].off < 0.15
    assert "sizes with a median are needed" in growth_told("it", [10.0, 20.0], [5.0, 9.0])


@pytest.mark.parametrize(
    "sizes, shape, told",
    [
        ([100, 120, 140, 160], lambda n: 7 * n, "too near each other"),
        ([20, 40, 80, 160], lambda n: 7 * n, "as a power, n^1.00 (95% interval 1.00 to 1.00)"),
        ([10, 20, 40, 80], lambda n: 3 * 1.05 ** (n * log(n)), "grows faster than exponentially"),
        ([10, 20, 40, 80], lambda n: n if n < 30 else 2**n, "no plain growth fits"),
    ],
)
def test_what_is_told(sizes: list[int], shape: Callable[[float], float], told: str) -> None:
    assert told in growth_told("it", sizes, [shape(n) for n in sizes])


def test_the_interval_has_the_power_as_often_as_it_says() -> None:
    random = Random(3)
    sizes = [20 * 2**i for i in range(6)]
    held = 0
    for _ in range(400):
        low, high = power_of(sizes, [n**1.7 * random.lognormvariate(0, 0.1) for n in sizes]).interval or (0, 0)
        held += low <= 1.7 <= high
    assert 365 <= held <= 392


def test_quantiles() -> None:
    endless = float("inf")
    assert [quantile([1.0, 2.0, 3.0, endless], part) for part in (0, 0.5, 0.75, 1)] == [1, 2.5, endless, endless]


@pytest.mark.parametrize(
    "path, words, shape",
    [
        ("epidemic/epidemic.pop", ["x=1", "y=20..1280*2"], "n log n"),
        ("flock/flock.pop", ["x=20..1280*2"], "n log n"),
        ("four", ["x=11..176*2", "y=x-1"], "n^2 log n"),
        ("majority/majority.pop", ["x=2..5+1", "y=x-1"], BEYOND),
    ],
)
def test_growth_as_in_the_literature(path: str, words: list[str], shape: str, tmp_path: Path) -> None:
    four = tmp_path / "four-states.pop"
    four.write_text(FOUR_STATES)
    run = pop(
        "sweep",
        str(four) if path == "four" else str(EXAMPLES / path),
        *words,
        "--runs",
        "30",
        "--csv",
        str(tmp_path / "table"),
    )
    assert run.returncode == 0
    rows, _ = read_csv((tmp_path / "table").read_text(), "table")
    fits = fits_of([row.n for row in rows], [row.figures["end median"] or 0 for row in rows])
    assert fits[0].shape == shape, run.stdout
