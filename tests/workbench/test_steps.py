"""`play --steps`: each crowd by names, with the move between, above what the program prints."""
from __future__ import annotations

import pytest

from hurleyoak.engine import program

from .conftest import EXAMPLES, needs_program
from .test_commands import pop

MAJORITY = "2 A, 1 B\n0,2     A + B -> a + b\n1 A, 1 a, 1 b\n1,2     A + b -> A + a\n1 A, 2 a\n\nA 1\na 2\nterminal\n"
AND = (
    '1 "0/N2", 2 "1/N1"\n0,1     "1/N1" + "1/N1" -> "0/N2" + "2/f"\n2 "0/N2", 1 "2/f"\n\n0/N2 2\n2/f 1\nenabled 0 2\n'
)
STAYS = "2 A, 1 B\n0,1     nothing changes\n2 A, 1 B\n\nA 2\nB 1\nenabled 0 2\n"


@needs_program
@pytest.mark.parametrize(
    "words, printed",
    [
        (["majority/net.json", "x=2", "y=1", "0,2", "1,2"], MAJORITY),
        (["majority/majority.pop", "x=2", "y=1", "0,1"], STAYS),
        (["and/and.pop", "x=2", "y=1", "0,1"], AND),
    ],
    ids=["net", "nothing changes", "two leaves"],
)
def test_each_crowd_is_shown(words: list[str], printed: str) -> None:
    path = str(EXAMPLES / words[0])
    assert pop("play", path, *words[1:], "--steps").stdout == printed
    assert pop("play", "--steps", path, *words[1:]).stdout == printed


@needs_program
def test_steps_of_standard_input_and_of_what_is_refused() -> None:
    assert pop("play", "--steps", text=(EXAMPLES / "majority" / "play.txt").read_text()).stdout == MAJORITY
    run = pop("play", str(EXAMPLES / "majority" / "net.json"), "x=2", "0,9", "--steps")
    assert run.returncode == program.REFUSED and run.stdout == "fault: line 3 agents\n"


@needs_program
def test_meetings_are_explained_and_drawn() -> None:
    path = str(EXAMPLES / "majority" / "play.txt")
    assert pop("explain", path).stdout == MAJORITY
    html = pop("explain", path, "--html").stdout
    assert 'type: "range"' in html and "x=2 y=1: 2 meetings" in html and "A + B -\\u003e a + b" in html
    drawn = pop("plot", path, "--text").stdout
    assert "play, x=2 y=1" in drawn and "terminal" in drawn


@needs_program
def test_meetings_that_are_none() -> None:
    net = (EXAMPLES / "majority" / "net.json").read_text().rstrip() + "\n"
    for line in ("0 9", "1 1", "0 1 2"):
        run = pop("explain", text=f"{net}crowd x=2 y=1\n0 1\n{line}\n")
        assert run.returncode and "no meeting" in run.stderr and not run.stdout
