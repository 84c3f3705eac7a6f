"""Each line that docs/reference/formats.md lists has a sentence with its input, and a meaning without it."""
from __future__ import annotations

import re

import pytest

from hurleyoak.engine.inputs import Asked
from hurleyoak.cli.help.showing import line_meaning
from hurleyoak.statuses import DIFFERS, NOT_BUILT, REFUSED, REJECTED
from hurleyoak.show.told.answers import status_told, told
from hurleyoak.show.told.meanings import MEANINGS

from .conftest import EXAMPLES, TOP

FORMATS = (TOP / "docs" / "reference" / "formats.md").read_text()
NUMBERS = re.compile(r"\b(W|N|AT|S|ATOM|I|J|Q|T|U|NODE)\b")
REASONS = {
    "fault: usage 1 WHY": ["missing", "unknown", "twice", "value", "product"],
    "fault: format PATH WHY": ["kind", "range", "name", "shape", "pred syntax 4"],
    "rejected leaf 0 true 1 WHY": [
        "missing",
        "too-deep",
        "bad-index",
        "no-twin",
        "not-open",
        "not-closed",
        "too-many-facts",
        "rest",
    ],
}


def _section(title: str) -> list[str]:
    part = FORMATS.split(f"## {title}\n", 1)[1].split("\n## ", 1)[0]
    return [row.split("|")[1] for row in part.splitlines() if row.startswith("| `")]


def listed_lines() -> list[str]:
    """Every line of the two tables, with numbers in place of letters."""
    out: list[str] = []
    for cell in _section("Texts of refusals") + _section("Texts of rejections"):
        for group in cell.split(";"):
            spans = re.findall(r"`([^`]*)`", group)
            first = spans[0]
            whole = [first] + [
                (
                    first.rsplit(" ", 2)[0] + f" {more} 7"
                    if first.startswith("fault: pred")
                    else first.rsplit(" ", 1)[0] + f" {more}"
                )
                for more in spans[1:]
                if more not in ("false",)
            ]
            for line in whole:
                line = NUMBERS.sub(lambda found: "0" if found.group() == "I" else "1", line)
                reasons = next(
                    (
                        reasons
                        for form, reasons in REASONS.items()
                        if line.startswith(form[:-4].replace("PATH", "")) and line.endswith("WHY")
                    ),
                    [""],
                )
                out += [line.replace("PATH", "/net/vars").replace("WHY", why) for why in (reasons or [""])]
    return list(dict.fromkeys(line for line in out if "WHY" not in line and not re.fullmatch(r"(missing|rest)", line)))


def test_the_tables_are_read() -> None:
    lines = listed_lines()
    assert {
        "fault: usage 1 product",
        "fault: line 1 agents",
        "fault: format /net/vars pred syntax 4",
        "fault: pred deep 7",
        "fault: wide 1",
        "rejected leaf 0 layers wakes 1 1",
        "rejected leaf 0 true 1 rest",
        "rejected leaf 0 true layers wakes 1 1",
        "rejected leaf 0 true set 1 output 1",
        "rejected leaf 0 true set 1 wakes 1 1",
        "rejected predicate",
        "fault: journal 1 round",
    } <= set(lines)
    assert len(lines) >= 45


@pytest.mark.parametrize("line", listed_lines())
def test_a_line_has_a_sentence_and_a_meaning(line: str) -> None:
    bundle = (EXAMPLES / "majority/bundle.json").read_text().strip()
    status = REJECTED if line.startswith("rejected") else REFUSED
    for command in (
        ["replay"]
        if "journal" in line
        else ["compile"]
        if "atoms" in line or "wid" in line
        else ["check", "run", "eval"]
    ):
        said = told(Asked([command, "--turns", "1"], [bundle, "crowd x=1 y=1", "x"]), [line], status)
        assert said and said != status_told(status), line
    assert line.startswith("rejected") or any(re.fullmatch(pattern, line) for pattern, _ in MEANINGS)
    assert line_meaning(line)


def test_differences_and_statuses() -> None:
    asked = Asked(["replay"], ["", "", "run", "round 1", "0 1 0"])
    for kept, found, word in [
        ("0 1 0", "0 1 0 *", "missing"),
        ("0 1 0 *", "0 1 0", "nothing"),
        ("round 2", "end", "come to its end"),
        ("end", "round 2", "goes on"),
        ("0 1 0", "0 0 1", "next pair"),
    ]:
        assert word in told(asked, ["differs 5", f"kept: {kept}", f"found: {found}"], DIFFERS)[0]
    asked.lines.append("end")
    for kept, found, word in [("", "b 2", "is missing"), ("b 2", "", "too many"), ("b 1", "b 2", "have `b 2` here")]:
        assert word in told(asked, ["differs 7", f"kept: {kept}", f"found: {found}"], DIFFERS)[0]
    assert all(status_told(status) for status in [*range(1, NOT_BUILT + 1), 134, -11])
