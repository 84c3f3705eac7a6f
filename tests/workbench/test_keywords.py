"""One table of keywords by entries: whoever reads a protocol's text keeps each of its keywords."""
from __future__ import annotations

import re
from pathlib import Path
from typing import Callable, NamedTuple

import pytest

from hurleyoak.cli.commands import family, main
from hurleyoak.engine import program
from hurleyoak.engine.claims import claimed
from hurleyoak.faults import InputFault
from hurleyoak.library.protocols import Protocol
from hurleyoak.proof.bundles import Goal, LeafGoals, LeafProof, Linear
from hurleyoak.search.finding import find
from hurleyoak.search.mending import drafts_of_bundle, mended
from hurleyoak.serve.proving import find_task
from hurleyoak.text.files import load
from hurleyoak.text.loaded import Loaded
from hurleyoak.text.popsections import FILE_WORDS, GOAL_WORDS, LEAF_WORDS
from hurleyoak.text.scanner import TextFault
from hurleyoak.text.writer import loaded_text

from .conftest import TOP, needs_program

WEB = TOP / "hurleyoak" / "show" / "web"
ALL_WORDS = {*FILE_WORDS, *LEAF_WORDS, *GOAL_WORDS, "family", "for"}

SAYS = "computes  x >= 1\n"
NET = "inputs    x: A  y: B\nA + B -> A + A\nyes       A\n"
HELPED = "inputs x: a\nhelpers L\nL + a -> Y + Y\nY + a -> Y + Y\nyes Y\ncomputes x >= 1\n"
EXACT = "inputs x: A y: B\nA + B -> a + b\nA + b -> A + a\nB + a -> B + b\nyes A a\ncomputes x - y > 0\n"
FOLLOWER = EXACT.replace("yes", "B + b -> A + b\nyes")
TWO = f"predicate !(x >= 1)\ncombine !p\nleaf p\n{NET}"
TURNS = "inputs x: A y: B\nA + B -> A + A\nA + A -> A + C\nA + C -> A + A\nyes A C\ncomputes x >= 1\n"
GOALS = "when true\n  layer B: 1\n    A + B -> A + A\n  keeps {A, C}\n  ?\nwhen false ?\n"


class Row(NamedTuple):
    """A text in which a line with this keyword counts: without it another thing comes of the text."""

    word: str
    text: str
    comes: str


ROWS = [
    Row("assume", EXACT + "assume x != y\n", "left out"),
    Row("assume", FOLLOWER + "assume x != y\n", "wrong at 1 2"),
    Row("format", "format 1\n" + HELPED, "fault"),
    Row("helpers", HELPED, "certified"),
    Row("variables", "variables x z\n" + NET + SAYS, "fault"),
    Row("predicate", TWO, "certified"),
    Row("combine", TWO, "certified"),
    Row("leaf", TWO, "certified"),
    Row("states", "states A A\n" + NET + SAYS, "fault"),
    Row("inputs", NET + SAYS, "certified"),
    Row("yes", NET + SAYS, "certified"),
    Row("no", "no A\n" + NET + SAYS, "fault"),
    Row("computes", NET + SAYS, "certified"),
    Row("layers", NET + SAYS + "layers none\n", "rejected"),
    Row("layer", NET + SAYS + "layer A: 1\n  *\n", "rejected"),
    Row("when", NET + SAYS + "when true\n  lin 0\n", "rejected"),
    Row("keeps", TURNS + GOALS.replace("{A, C}", "{A, B}"), "not found"),
]


def _of(found: Loaded, counts: object) -> str:
    return "wrong at " + " ".join(str(k) for k in (counts if isinstance(counts, tuple) else ()))


def by_command(text: str, folder: Path, capsys: pytest.CaptureFixture[str]) -> str:
    """`pop find FILE`."""
    (folder / "one.pop").write_text(text)
    capsys.readouterr()
    status = main(["find", "--jobs", "1", str(folder / "one.pop")])
    said = capsys.readouterr().err
    if status == program.REFUSED:
        return "fault"
    if "leaves that input out by `assume`" in said:
        return "left out"
    if wrong := re.search(r"the protocol is wrong: at (.*?) the predicate", said):
        return "wrong at " + " ".join(re.findall(r"=(\d+)", wrong[1]))
    lines = said.split("\n")
    return next((str(claimed(line).kind) for line in lines if claimed(line)), "") or (
        "rejected" if any(line.startswith("rejected ") for line in lines) else "not found"
    )


def by_family(text: str, folder: Path, capsys: pytest.CaptureFixture[str]) -> str:
    """`pop find FILE` of a family with one member, which prints a table."""
    (folder / "many.pop").write_text("family t in 0..0\n" + text)
    capsys.readouterr()
    if main(["find", "--jobs", "1", str(folder / "many.pop")]) == program.REFUSED:
        return "fault"
    answer = capsys.readouterr().out.split("\n")[1].split(None, 4)[-1].strip()
    told = {family.WRONG: "wrong", family.LEFT_OUT: "left out", family.NOT_FOUND: "not found"}
    return told.get(answer) or (str(claimed(answer).kind) if claimed(answer) else answer.split(" ")[0])


def by_page(text: str, folder: Path, capsys: pytest.CaptureFixture[str]) -> str:
    """The page's "Find a proof"."""
    try:
        done = find_task({"text": text}, lambda event, value: None)
    except (InputFault, TextFault):
        return "fault"
    if done["found"] == "proof":
        return str(done["answer"]["claim"]) if done["answer"]["good"] else "rejected"
    if done["found"] == "flaw":
        return "wrong at " + " ".join(str(k) for k in done["counts"].values())
    return "left out" if "leaves that input out" in done["told"][0] else "not found"


def by_library(text: str, folder: Path, capsys: pytest.CaptureFixture[str]) -> str:
    """`Protocol.find`."""
    try:
        found = Protocol.parse(text).find(jobs=1)
    except InputFault:
        return "fault"
    if found.refuted is not None:
        return "wrong at " + " ".join(str(k) for k in found.refuted.counts.values())
    if found.verdict is not None:
        return str(claimed(found.verdict.line).kind) if found.verdict else "rejected"
    return "left out" if "leaves that input out" in found.told else "not found"


ENTRIES = (by_command, by_family, by_page, by_library)


def test_every_keyword_has_a_row() -> None:
    assert {row.word for row in ROWS} == {*FILE_WORDS, *LEAF_WORDS, *GOAL_WORDS}


@needs_program
@pytest.mark.parametrize("entry", ENTRIES, ids=lambda entry: str(entry.__name__))
@pytest.mark.parametrize("row", ROWS, ids=lambda row: f"{row.word}: {row.comes}")
def test_each_entry_keeps_each_keyword(
    row: Row,
    entry: Callable[[str, Path, pytest.CaptureFixture[str]], str],
    tmp_path: Path,
    capsys: pytest.CaptureFixture[str],
) -> None:
    pytest.importorskip("scipy")
    came = entry(row.text, tmp_path, capsys)
    # (a family's table doesn't name the input)
    assert came == (row.comes.split(" at ")[0] if entry is by_family else row.comes)
    without = "".join(line for line in row.text.splitlines(True) if line.split()[0] != row.word)
    assert entry(without, tmp_path, capsys) != row.comes


@needs_program
@pytest.mark.parametrize(
    "row", [row for row in ROWS if row.comes != "fault"], ids=lambda row: f"{row.word}: {row.comes}"
)
def test_what_is_written_has_each_keyword(row: Row, tmp_path: Path, capsys: pytest.CaptureFixture[str]) -> None:
    """A net that is written again, as the page and the library do, is the same to `find`."""
    pytest.importorskip("scipy")
    text = loaded_text(load(row.text, "x"), None)
    if row.word in ("layers", "layer", "when", "keeps"):
        return
    says = [line for line in row.text.splitlines(True) if line.startswith(("computes", "predicate"))]
    assert by_command(text + says[0], tmp_path, capsys) == row.comes


@needs_program
@pytest.mark.parametrize("row", [row for row in ROWS if row.word == "assume"], ids=lambda row: str(row.comes))
def test_mending_keeps_what_is_assumed(row: Row) -> None:
    """A spoilt proof is mended over the inputs that count."""
    pytest.importorskip("scipy")
    loaded = load(row.text + "layers none\nwhen true\n  lin 0\nwhen false\n  lin 0\n", "x")
    from hurleyoak.text.loaded import strict_bundle

    bundle = strict_bundle(loaded)
    flaws = []

    def look(one: Loaded) -> None:
        made = find(one, 10, 4, 1)
        flaws.append(made)

    mended(loaded, bundle, program.check(bundle.line()), look)
    assert flaws and all((made.flaw is None) == (row.comes == "left out") for made in flaws if made.is_flawed)


def test_the_page_knows_each_keyword() -> None:
    """The editor colours, explains and completes each of them."""
    heads = re.search(r"const HEAD_WORDS = \[(.*?)\n\];", (WEB / "mode.js").read_text(), re.DOTALL)
    names = re.search(r"const KEYWORDS = \{(.*?)\n\};", (WEB / "names.js").read_text(), re.DOTALL)
    assert heads and names
    assert ALL_WORDS <= {*re.findall(r'"([a-z]+)"', heads[1])}
    assert ALL_WORDS <= {*re.findall(r"^  ([a-z]+):", names[1], re.MULTILINE)}


def test_the_grammar_has_each_keyword() -> None:
    grammar = (TOP / "docs" / "reference" / "pop.md").read_text().split("## Grammar")[1].split("## Proofs")[0]
    assert {*FILE_WORDS, *LEAF_WORDS, *GOAL_WORDS} <= {*re.findall(r'"([a-z]+)"', grammar)}
