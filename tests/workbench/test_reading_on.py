"""All faults of a text at once: what is told is what stands there, and nothing that only follows."""
from __future__ import annotations

from pathlib import Path

import pytest
from hypothesis import given, settings
from hypothesis import strategies as st

from hurleyoak.faults import InputFault
from hurleyoak.text.files import load, load_pop
from hurleyoak.text.reading_on import MOST_FAULTS, faults_in
from hurleyoak.text.scanner import TextFault

from .conftest import EXAMPLES

MAJORITY = (EXAMPLES / "majority/majority.pop").read_text()
LARGE = 50_000  # bytes
HEAD = "inputs x: A  y: B\n"


@pytest.mark.parametrize(
    "path", sorted(path for path in EXAMPLES.glob("*/*.pop") if path.stat().st_size < LARGE), ids=str
)
def test_a_text_that_is_read_has_none(path: Path) -> None:
    text = path.read_text()
    try:
        load_pop(text, "")
    except TextFault:
        return
    assert faults_in(text) == []


@pytest.mark.parametrize(
    "text, lines",
    [
        (HEAD + "A + B => a + b\nA + b -> A\nyes A a\ncomputes x >< y\n", [2, 3, 5]),
        (HEAD + "A + B -> a + b\nyes A\nno A\ncomputes z < 1\n", [4, 5]),
        (HEAD + "A + B -> a + b\nyes A ! a\nno B\n", [3]),
        ("inputs x A\nA + B -> a + b\nA + B\n", [1, 3]),
        (HEAD + "A + B -> a + b\nyes A\nlayer A: one\n  A + B\nwhen tru\n  open predicate\n", [4, 6]),
        (HEAD + "A + B -> B\n" * 99 + "yes A\n", list(range(2, 2 + MOST_FAULTS))),
        ("", [1]),
        ("leaf a\ninputs x: A\nA + -> A\nyes A\nleaf a\ninputs x: A\n", [3, 5]),
        ("i!puts x: A\nA + A -> A + A\nA + A -> A + A\nyes A\n", [1]),
        ("A + A -> A + A\nyes A\n", [1]),
        ("A + A\n", [1]),
    ],
)
def test_lines_with_faults(text: str, lines: list[int]) -> None:
    assert [fault.line for fault in faults_in(text)] == lines


@given(
    st.integers(0, len(MAJORITY) - 1),
    st.sampled_from(["", "!", "\n", " A ", "->", "?", "when", '"']),
    st.integers(0, len(MAJORITY) - 1),
)
@settings(max_examples=50, deadline=None)
def test_the_first_fault_is_among_them(at: int, put: str, then: int) -> None:
    text = MAJORITY[:at] + put + MAJORITY[at + 1 :]
    text = text[:then] + put + text[then + 1 :]
    found = [(fault.line, fault.column, fault.told) for fault in faults_in(text)]
    try:
        load_pop(text, "")
        assert found == []
    except TextFault as fault:
        assert (fault.line, fault.column, fault.told) in found


@pytest.mark.parametrize(
    "text, place, quoted",
    [("inputs x A\n", (1, 10), "inputs x A"), ('{\n "a": }', (2, 7), ' "a": }'), ('{"vars":1}', (0, 0), "")],
)
def test_a_fault_is_a_value(text: str, place: tuple[int, int], quoted: str) -> None:
    with pytest.raises(InputFault) as caught:
        load(text, "it")
    fault = caught.value
    assert (fault.line, fault.column) == place and fault.quoted == quoted
    assert fault.sentence in str(fault)
