"""explain's own reading is the program's, and what it prints is read back."""
from __future__ import annotations

import re
from pathlib import Path
from typing import Any

import pytest

from hurleyoak.engine import program
from hurleyoak.proof.checking import verdict
from hurleyoak.show.drawing import drawn
from hurleyoak.show.explaining import bundle_to_explain, explain
from hurleyoak.text.files import load
from hurleyoak.text.loaded import strict_bundle
from hurleyoak.protocol.nets import FormatFault, compact
from hurleyoak.show.page import page
from hurleyoak.proof.bundles import Bundle, bundle_of
from hurleyoak.text.writer import text_of

from .changes import changed
from .conftest import CHANGES, COMPILED, EXAMPLES, bundle_at, compiled, example_paths, needs_program


def expected_line(path: Path) -> str:
    """The first line that `check` printed of an example, as it is stored."""
    name = "check.expected" if path.name == "bundle.json" else path.with_suffix(".expected").name
    return (path.parent / name).read_text().split("\n")[0]


@pytest.mark.parametrize("path", example_paths(), ids=lambda p: f"{p.parent.name}/{p.name}")
def test_own_reading_of_the_examples(path: Path) -> None:
    assert verdict(bundle_at(path)) == expected_line(path)


def values() -> list[dict[str, Any]]:
    """Bundles to be changed."""
    return [bundle_at(path).value() for path in example_paths() if path.parent.name != "rejected"] + [
        compiled(text).value() for text in COMPILED
    ]


@needs_program
def test_seeded_changes_are_read_as_the_program_reads_them() -> None:
    bundles = values()
    reasons: set[str] = set()
    for seed in range(CHANGES):
        value = changed(bundles[seed % len(bundles)], seed)
        try:
            bundle = bundle_of(value)
        except FormatFault as fault:
            assert program.check(compact(value)).first_line == str(fault), seed
            continue
        line = program.check(bundle.line()).first_line
        assert verdict(bundle) == line, seed
        reasons.add(line.split()[-1] if "layers" not in line else line.split()[4])
        again = strict_bundle(load(drawn(explain(load(bundle.line(), "x"), bundle, line)), "x"))
        assert again == bundle, seed
    assert len(reasons) > (10 if CHANGES >= 60 else 2)


@pytest.mark.parametrize("path", example_paths(), ids=lambda p: f"{p.parent.name}/{p.name}")
def test_what_explain_prints_is_read_back(path: Path) -> None:
    bundle = bundle_at(path)
    told = explain(load(bundle.line(), "x"), bundle, expected_line(path))
    assert not told.differs
    assert drawn(told).startswith(f"# {expected_line(path)}\n")
    assert strict_bundle(load(drawn(told), "x")) == bundle
    assert strict_bundle(load(drawn(told, everything=True), "x")) == bundle
    html = page(told)
    assert expected_line(path) in html and not re.search(r"https?://", html)


def told_of(bundle: Bundle) -> str:
    """The drawn text of a bundle, with the workbench's own line in the program's place."""
    return drawn(explain(load(bundle.line(), "x"), bundle, verdict(bundle)))


@pytest.mark.parametrize(
    "name, sentences",
    [
        ("wrong-trap", ["`[A + b -> A + a]` is still positive: [A + b -> A + a] - 1"]),
        ("node-bad-index", ["there is no fact", "this branch has the facts 0 to"]),
        ("node-no-twin", ["takes I twice"]),
        ("node-not-open", ["doesn't say what value a predicate has; these do: predicate"]),
        ("node-missing", ["the nodes end here, and this case has none"]),
        ("node-rest", ["the tree has too many"]),
        ("node-not-closed", ["still positive"]),
        ("layers-not-lower", ["before it", "after it"]),
        ("layers-no-layer", ["is in no layer"]),
        ("layers-shape", ["layer 0"]),
        (
            "layers-wakes",
            [
                "`N0 + N0 -> N0 + f`",
                "possible again",
                "before it the agents N0, N0, N1 are there",
                "after it there are N0, f, N1, and `N1 + f -> N1 + t` is possible",
            ],
        ),
        ("predicate", ["the leaves' predicates combine to", "another tree"]),
    ],
)
def test_what_is_missing_is_said(name: str, sentences: list[str]) -> None:
    text = told_of(bundle_at(EXAMPLES / "rejected" / f"{name}.json"))
    for sentence in sentences:
        assert sentence in text


@pytest.mark.parametrize(
    "name, move, tells",
    [
        ("epidemic", "S + I -> I + I", "case"),
        ("majority", "b + a -> b + b", "no fact `absent(b)` here"),
        ("flock", "1 + 2 -> 3 + 3", "`1 + 2 -> 3 + 3`"),
        ("remainder", "N1 + f -> N1 + t", "no fact `absent(f)` here"),
        ("threshold", "L1 + t0 -> L1 + f0", "no fact `absent(t0)` here"),
    ],
)
def test_a_dropped_move_is_told(name: str, move: str, tells: str) -> None:
    """The recipes of docs/guide/certificates.md, each with a move dropped from its net: what is wrong is said where it
    is."""
    text = (EXAMPLES / name / f"{name}.pop").read_text()
    head, proof = text.split("\nwhen true", 1)
    assert f"\n{move}\n" in head
    loaded = load(head.replace(f"\n{move}\n", "\n", 1) + "\nwhen true" + proof, "x")
    bundle = bundle_to_explain(loaded)
    line = verdict(bundle)
    shown = drawn(explain(loaded, bundle, line))
    if line.startswith("rejected"):
        assert ">>> refused" in shown
    assert line.startswith("certified") or tells in shown or "still positive" in shown or "the constant" in shown


def test_a_net_without_a_proof_is_explained() -> None:
    loaded = load("inputs x: A\nA + A -> b + b\nyes b\ncomputes x >= 2\n", "x")
    bundle = bundle_to_explain(loaded)
    shown = drawn(explain(loaded, bundle, verdict(bundle)))
    assert "is in no layer" in shown
    assert text_of(bundle.net) in shown
