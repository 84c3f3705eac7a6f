"""What the documents show is what the workbench does."""
from __future__ import annotations

import os
import re
import subprocess
from pathlib import Path

import pytest

from hurleyoak.engine import program
from hurleyoak.cli.table import OWN as TABLE
from hurleyoak.text.files import load
from hurleyoak.text.loaded import strict_bundle
from hurleyoak.text.popsections import FILE_WORDS, LEAF_WORDS

from .conftest import EXAMPLES, TOP, bundle_at, needs_program
from .test_commands import pop

WORKBENCH = "".join(
    (TOP / "docs" / name).read_text()
    for name in (
        "guide/workbench.md",
        "guide/explaining.md",
        "guide/finding.md",
        "guide/behaviour.md",
        "guide/page.md",
        "reference/pop.md",
    )
)
CERTIFICATES = (TOP / "docs" / "guide" / "certificates.md").read_text()


def blocks(text: str) -> list[str]:
    """The blocks of code of a document."""
    return re.findall(r"^```\n(.*?)^```", text, re.MULTILINE | re.DOTALL)


def test_the_proof_by_names_is_the_example() -> None:
    block = next(b for b in blocks(CERTIFICATES) if b.startswith("states    S I"))
    assert block in (EXAMPLES / "epidemic" / "epidemic.pop").read_text()
    assert strict_bundle(load(block, "x")) == bundle_at(EXAMPLES / "epidemic" / "bundle.json")


def test_the_first_file_is_the_majority() -> None:
    block = next(b for b in blocks(WORKBENCH) if b.startswith("# majority"))
    assert load(block, "x").net == bundle_at(EXAMPLES / "majority" / "bundle.json").net


def test_every_word_is_in_the_documents() -> None:
    for word in TABLE:
        assert re.search(rf"`{word}[ `]", WORKBENCH), word
    for word in (*FILE_WORDS, *LEAF_WORDS):
        assert f'"{word}"' in WORKBENCH, word


@needs_program
def test_the_explained_node_is_what_explain_prints() -> None:
    block = next(b for b in blocks(WORKBENCH) if "leaves: lin leaves{B, b}" in b)
    assert block in pop("explain", str(EXAMPLES / "rejected" / "wrong-trap.json")).stdout


@needs_program
def test_the_counterexample_is_what_find_prints() -> None:
    block = next(b for b in blocks(WORKBENCH) if b.startswith("the protocol is wrong"))
    wrong = (
        "inputs x: A  y: B\nA + B -> a + b\nA + b -> A + a\nB + a -> B + b\na + b -> a + a\nyes A a\ncomputes y - x"
        " < 0\n"
    )
    assert pop("refute", text=wrong).stdout == block


@needs_program
def test_the_flock_that_gives_back_needs_first_and_the_mended_one_does_not() -> None:
    pytest.importorskip("scipy")
    block = next(b for b in blocks(CERTIFICATES) if "4 + 0 -> 4 + 2" in b)
    text = "inputs x: 1  y: 0\n" + block + "yes 4\ncomputes x >= 4\n"
    run = pop("find", text=text)
    assert run.returncode == program.DONE and '["first",[3]]' in run.stdout
    mended = pop("find", text=text.replace("4 + 0 -> 4 + 2", "4 + 0 -> 4 + 4"))
    assert mended.returncode == program.DONE and "first" not in mended.stdout


def test_the_limits_of_the_documents() -> None:
    from hurleyoak.search import branch, least

    assert f"numbers above {branch.FLOATS:,}" in WORKBENCH
    assert f"at most {least.MOST_MOVES} moves" in WORKBENCH


@pytest.mark.parametrize("missing", [["scipy"], ["numpy", "scipy"]])
def test_a_missing_package_is_asked_for_by_name(tmp_path: Path, missing: list[str]) -> None:
    for package in missing:
        (tmp_path / package).mkdir()
        (tmp_path / package / "__init__.py").write_text("raise ImportError\n")
    run = subprocess.run(
        ["/usr/bin/python3", str(TOP / "hurleyoak"), "find", str(EXAMPLES / "majority" / "majority.pop")],
        capture_output=True,
        text=True,
        env={**os.environ, "PYTHONPATH": str(tmp_path)},
        check=False,
    )
    assert run.returncode == program.REFUSED and "apt-get install python3-scipy" in run.stderr
