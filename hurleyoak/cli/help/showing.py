"""Shows help on a terminal of 80 columns: the overview, the page of a command, the meaning of a line of the
program."""
from __future__ import annotations

import re
import sys
import textwrap
from typing import Sequence

from ...statuses import DONE, USAGE
from ..table import OTHER, PROGRAM, STATUSES, WORKBENCH, Command, all_commands

WIDTH = 79
COLUMN = 13
MARGIN = 2
PROVED = "Commands of the program, which is proved"
UNPROVED = "Commands of the workbench, which is not proved, and shows no verdict but the program's"
FIELD_WORDS = (
    "Papers say configuration for a crowd, interaction for a meeting, transition for a move, silent for terminal, "
    "and leader for a helper: see docs/reference/glossary.md."
)


def _rows(pages: Sequence[Command]) -> list[str]:
    out = []
    for page in pages:
        lead = " " * MARGIN + page.word
        out += textwrap.wrap(
            page.short, WIDTH, initial_indent=lead.ljust(COLUMN) + " ", subsequent_indent=" " * (COLUMN + 1)
        )
    return out


def overview() -> str:
    """The page of `pop help`."""
    lines = [
        "pop: population protocols, checked and run",
        "",
        "  pop check FILE               a file as an argument, or",
        "  pop check < bundle.json      the program's own words over standard input",
        "",
    ]
    lines += [
        PROVED + ":",
        *_rows(PROGRAM),
        "",
        *textwrap.wrap(UNPROVED + ":", WIDTH),
        *_rows(WORKBENCH),
        "",
        "Other words:",
        *_rows(OTHER),
        "",
    ]
    half = (len(STATUSES) + 1) // 2
    lines += [
        "Exit statuses:",
        *(f"  {left:<47} {right}" for left, right in zip(STATUSES[:half], STATUSES[half:])),
        "",
    ]
    lines += textwrap.wrap(
        (
            "`pop help COMMAND` has forms, options and examples. docs/reference/formats.md has the files and "
            "every line of the program. docs/guide/certificates.md says how to write a proof. "
            "examples/ has protocols to start from."
        ),
        WIDTH,
    )
    lines += ["", *textwrap.wrap(FIELD_WORDS, WIDTH)]
    return "\n".join(lines) + "\n"


def page_text(page: Command) -> str:
    """The page of a command."""
    proved = (
        "a command of the program, which is proved"
        if page in PROGRAM
        else ""
        if page in OTHER
        else "a command of the workbench, which is not proved"
    )
    lines = textwrap.wrap(f"pop {page.word}: {page.short}", WIDTH)
    lines += [f"({proved})"] if proved else []
    lines += ["", *(f"  {form}" for form in page.forms), ""]
    lines += [*textwrap.wrap(page.text, WIDTH), ""] if page.text else []
    if page.options:
        lines.append("Options:")
        for option in page.options:
            lines += textwrap.wrap(
                option.told,
                WIDTH,
                initial_indent=f"  {option.shown}".ljust(COLUMN + 5) + " ",
                subsequent_indent=" " * (COLUMN + 6),
            )
        lines.append("")
    lines += ["Examples:", *(f"  {example}" for example in page.examples)] if page.examples else []
    return "\n".join(lines).rstrip("\n") + "\n"


def show_page(word: str) -> int:
    """Prints the page of a command."""
    print(page_text(next(page for page in all_commands() if page.word == word)), end="")
    return DONE


def line_meaning(line: str) -> list[str]:
    """What a line of the program means, without its input."""
    from ...engine.inputs import Asked
    from ...show.told.answers import told
    from ...show.told.meanings import MEANINGS

    for pattern, meaning in MEANINGS:
        if re.fullmatch(pattern, line):
            return [meaning]
    return told(Asked(["check"]), [line], USAGE)


def help_command(words: list[str]) -> int:
    """`pop help`, `pop help COMMAND`, `pop help 'fault: ..'`."""
    text = " ".join(words)
    if not words:
        print(overview(), end="")
        return DONE
    pages = {page.word: page for page in all_commands()}
    if text in pages:
        return show_page(text)
    if re.match(r"(fault|rejected|differs|undecided|certified|stable|holds|enabled|settled|terminal|verdict)\b", text):
        print("\n".join(textwrap.wrap(" ".join(line_meaning(text)), WIDTH)))
        return DONE
    from ...show.told.quoting import meant

    print(f"pop: there is no help on `{text}`{meant(text, pages)}; `pop help` has the commands", file=sys.stderr)
    return USAGE
