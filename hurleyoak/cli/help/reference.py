"""Prints docs/reference/commands.md: `python3 -m hurleyoak.cli.help.reference`."""
from __future__ import annotations

import textwrap

from ..table import OTHER, PROGRAM, STATUSES, WORKBENCH, Command
from .showing import FIELD_WORDS, PROVED, UNPROVED

WIDTH = 120
HEAD = """# Commands

Every command with its forms, its options and two examples. `make texts` writes this page from the table of commands
(hurleyoak/cli/table), as it writes the help, the manual page and the completions. [Files and
lines](formats.md) has what each command of the program reads and prints, [limits](limits.md) the numbers.

An option's value follows the option or a `=`: `--seed 3` or `--seed=3`. Every command also takes `-o FILE`, which
writes to a file what the command would print. FILE is written whole, or not at all.
"""


def cell(text: str) -> str:
    """A text for a cell of a table."""
    return text.replace("|", "\\|")


def overview() -> list[str]:
    """A row for each command."""
    lines = ["| Command | What it does | Proved |", "|---|---|---|"]
    for page in (*PROGRAM, *WORKBENCH, *OTHER):
        proved = "yes" if page in PROGRAM else "no"
        lines.append(f"| `{page.word}` | {cell(page.short)} | {proved} |")
    return lines


def section(page: Command) -> list[str]:
    """A command's section."""
    told = textwrap.wrap(f"{page.short[0].upper()}{page.short[1:]}. {page.text}", WIDTH, break_on_hyphens=False)
    lines = ["", f"### `{page.word}`", "", *told, ""]
    lines += ["```", *page.forms, "```"]
    if page.options:
        lines += ["", "| Option | What it does |", "|---|---|"]
        lines += [f"| `{cell(option.shown)}` | {cell(option.told)} |" for option in page.options]
    if page.examples:
        lines += ["", "Examples:", "", "```", *page.examples, "```"]
    return lines


def statuses() -> list[str]:
    """The exit statuses."""
    rows = [status.split(" ", 1) for status in STATUSES]
    return ["## Exit statuses", "", "| Status | Meaning |", "|---|---|", *(f"| {n} | {told} |" for n, told in rows)]


def reference() -> str:
    """The whole page."""
    lines = [HEAD, *overview(), "", *textwrap.wrap(FIELD_WORDS, WIDTH), "", *statuses()]
    for title, pages in ((PROVED, PROGRAM), (UNPROVED, WORKBENCH), ("Other words", OTHER)):
        lines += ["", f"## {title}"]
        for page in pages:
            lines += section(page)
    return "\n".join(lines) + "\n"


if __name__ == "__main__":
    print(reference(), end="")
