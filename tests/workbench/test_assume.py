"""Lines `assume`: which inputs count, and what is said where a certificate would speak of all."""
from __future__ import annotations

import pytest

from hurleyoak.engine import program
from hurleyoak.faults import InputFault
from hurleyoak.text.files import load

from .conftest import needs_program
from .test_commands import pop

NET = "inputs x: A  y: B\nA + B -> a + b\nA + b -> A + a\nB + a -> B + b\nyes A a\ncomputes x - y > 0\n"


@pytest.mark.parametrize(
    "lines, counts, meets",
    [
        ("", (0, 0), True),
        ("assume x != y\n", (2, 2), False),
        ("assume x != y\n", (2, 1), True),
        ("assume x != y\nassume x + y >= 4\n", (2, 1), False),
    ],
)
def test_which_inputs_count(lines: str, counts: tuple[int, int], meets: bool) -> None:
    assert load(lines + NET, "x").meets(counts) == meets


def test_what_is_assumed_is_a_predicate() -> None:
    with pytest.raises(InputFault):
        load("assume x != z\n" + NET, "x")


@needs_program
def test_inputs_that_are_left_out_are_no_counterexample() -> None:
    run = pop("refute", "--agents", "5", text="assume x != y\n" + NET)
    assert (
        run.returncode == 0
        and run.stdout == "no flaw: all inputs of up to 5 agents plus helpers that meet `x - y != 0` were tried\n"
    )
    assert pop("refute", "--agents", "5", text=NET).returncode == program.REJECTED
    run = pop("simulate", "-", "x=3", "y=3", text="assume x != y\n" + NET)
    assert run.returncode == program.REFUSED and "doesn't meet what the file assumes: x - y != 0" in run.stderr
    assert pop("simulate", "-", "x=3", "y=2", text="assume x != y\n" + NET).returncode == 0


@needs_program
def test_that_no_input_was_tried_is_told() -> None:
    run = pop("refute", "--agents", "4", text="assume x >= 5 && x < 3\n" + NET)
    assert run.returncode == 4 and run.stdout.startswith("no input was tried: none of up to 4 agents plus helpers")


def test_a_page_shows_no_curve_of_an_input_that_is_left_out() -> None:
    """The usual crowd, or the nearest one that counts."""
    from hurleyoak.serve.still import usual_counts

    assert usual_counts(load(NET, "x")) == (800, 200)
    assert usual_counts(load("assume x != 4*y\n" + NET, "x")) == (801, 200)
    assert usual_counts(load("assume x < 3\n" + NET, "x")) is None
    run = pop("page", "-", "x=3", "y=3", text="assume x != y\n" + NET)
    assert run.returncode == program.REFUSED and "doesn't meet what the file assumes" in run.stderr
