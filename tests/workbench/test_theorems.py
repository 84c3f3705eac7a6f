"""tests/theorems.py is refused on a list of definitions with one name taken out."""
from __future__ import annotations

import sys
from importlib import import_module
from pathlib import Path
from types import ModuleType

import pytest

from .conftest import TOP

TAKEN = ("IsFair", "OccursInfinitelyOften", "Reachable", "ReachedWithin", "combined")


@pytest.fixture(scope="module")
def theorems() -> ModuleType:
    """The script as a module, at the top of the repository."""
    with pytest.MonkeyPatch.context() as patch:
        patch.syspath_prepend(str(TOP / "tests"))
        return import_module("theorems")


@pytest.fixture(autouse=True)
def at_the_top(monkeypatch: pytest.MonkeyPatch) -> None:
    """Its paths are from there."""
    monkeypatch.chdir(TOP)


@pytest.mark.parametrize("name", TAKEN)
def test_a_list_without_a_name_is_refused(name: str, theorems: ModuleType) -> None:
    """Each name stands in the list of `certified`, and is used there."""
    rests = theorems.Rests(theorems.all_definitions())
    roots = [("pop_tool", "Headline", "CheckSays"), ("pop_tool", "Outcome", "IsAnswered")]
    but = theorems.PROOFS | theorems.BOUNDS
    listed = rests.beneath(roots, but)
    assert not rests.unlisted(listed, but)
    taken = {key for key in listed if key[2] == name}
    assert taken
    with pytest.raises(SystemExit, match=name):
        theorems.reading_list("To believe `certified`", "", listed - taken, rests, but)


@pytest.mark.parametrize("at", [0, 1])
def test_a_way_with_a_hole_is_refused(at: int, theorems: ModuleType) -> None:
    """From what the call ensures down to the headline each step names the next."""
    rests = theorems.Rests(theorems.all_definitions())
    promised = {theorems.WAY[0]}
    assert theorems.broken_way(promised, rests) is None
    rests.direct[theorems.WAY[at]] -= {theorems.WAY[at + 1]}
    with pytest.raises(SystemExit, match=theorems.WAY[at][2]):
        theorems.way_down(promised, rests)


def test_a_call_that_ensures_something_else_is_refused(theorems: ModuleType) -> None:
    rests = theorems.Rests(theorems.all_definitions())
    with pytest.raises(SystemExit, match=theorems.TOP_CALL):
        theorems.way_down(set(), rests)


def test_a_list_begins_with_fields_that_are_there(theorems: ModuleType) -> None:
    rests = theorems.Rests(theorems.all_definitions())
    with pytest.raises(SystemExit, match="no field"):
        theorems.named_by(("check", "no_such_field"), rests)


def test_a_document_without_a_name_is_refused(
    theorems: ModuleType, tmp_path: Path, monkeypatch: pytest.MonkeyPatch
) -> None:
    """The page is what the sources say, whole."""
    monkeypatch.setattr(sys, "argv", ["theorems.py"])
    assert theorems.main() == 0
    text = theorems.DOCUMENT.read_text()
    cut = tmp_path / "theorems.md"
    cut.write_text(text.replace("`IsFair`", "", 1))
    assert cut.read_text() != text
    monkeypatch.setattr(theorems, "DOCUMENT", cut)
    assert theorems.main() == 1
