"""Prints man/pop.1: `python3 -m hurleyoak.cli.help.manual`."""
from __future__ import annotations

from ...version import RELEASE
from ..table import OTHER, PROGRAM, STATUSES, WORKBENCH, Command
from .showing import FIELD_WORDS, PROVED, UNPROVED

HEAD = (
    f'.TH POP 1 "" "hurleyoak {RELEASE}" "User Commands"',
    ".SH NAME",
    "pop \\- population protocols, checked and run",
    ".SH SYNOPSIS",
    ".B pop",
    ".I COMMAND",
    "[\\fIFILE\\fR] [\\fIWORD\\fR].. [\\fIOPTION\\fR]..",
    ".SH DESCRIPTION",
    (
        "A population protocol is a program for a crowd of anonymous agents that meet in pairs and have to agree on a "
        "predicate of"
    ),
    (
        "their input. pop checks proofs that a protocol computes its predicate for crowds of two agents or more, and runs, "
        "settles, plays,"
    ),
    "compiles and replays protocols.",
    ".PP",
    (
        "A command of the program takes its input from standard input, or a file as an argument: JSON on one line or "
        "many, or a .pop"
    ),
    "file. A sentence on standard error, next to the program's own line, says what is wrong with an input.",
    ".PP",
    FIELD_WORDS,
)


def escaped(text: str) -> str:
    """A text for a line of the manual."""
    text = text.replace("\\", "\\e").replace("-", "\\-")
    return "\\&" + text if text[:1] in (".", "'") else text


def page_lines(page: Command) -> list[str]:
    """A command's part."""
    lines = [
        f".SS {escaped(page.word)}",
        escaped(page.short[0].upper() + page.short[1:] + "."),
        ".PP",
        ".nf",
        *(escaped(form) for form in page.forms),
        ".fi",
    ]
    if page.text:
        lines += [".PP", escaped(page.text)]
    for option in page.options:
        lines += [".TP", f".B {escaped(option.shown)}", escaped(option.told)]
    if page.examples:
        lines += [
            ".PP",
            "Examples:",
            ".PP",
            ".nf",
            ".RS",
            *(escaped(example) for example in page.examples),
            ".RE",
            ".fi",
        ]
    return lines


def manual() -> str:
    """The whole page."""
    lines = list(HEAD)
    for title, pages in ((PROVED, PROGRAM), (UNPROVED, WORKBENCH), ("Other words", OTHER)):
        lines.append(f".SH {escaped(title.upper())}")
        for page in pages:
            lines += page_lines(page)
    lines += [".SH EXIT STATUS"]
    for status in STATUSES:
        number, told = status.split(" ", 1)
        lines += [".TP", f".B {number}", escaped(told)]
    lines += [".SH ENVIRONMENT", ".TP", ".B POP_MAIN", escaped("the program, in place of the one that pop builds")]
    lines += [".TP", ".B POP_KERNEL", escaped("the kernel, in place of the one that pop builds")]
    return "\n".join(lines) + "\n"


if __name__ == "__main__":
    print(manual(), end="")
