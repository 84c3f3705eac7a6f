"""Sentences on standard error."""
from __future__ import annotations

import shutil
import sys
import textwrap
from typing import Sequence

from .visible import one_line

LEAD, BELOW = "pop: ", "     "
LEAST_WIDTH = 40


def say(lines: Sequence[str]) -> None:
    """The first line with the tool's name, the others below it, each of them one line; on a terminal they are wrapped, and quoted lines are
    not."""
    lines = [one_line(line) for line in lines]
    width = shutil.get_terminal_size().columns - 1 if sys.stderr.isatty() else 0
    for number, line in enumerate(lines):
        lead = BELOW if number else LEAD
        if width and not line.startswith(" "):
            lead_and_line = textwrap.wrap(
                line, max(width, LEAST_WIDTH), initial_indent=lead, subsequent_indent=BELOW, break_on_hyphens=False
            )
            print("\n".join(lead_and_line), file=sys.stderr, flush=True)
        else:
            print(lead + line, file=sys.stderr, flush=True)
