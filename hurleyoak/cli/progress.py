"""A progress line on a terminal, for work that takes longer than a second; elsewhere a line, once, where work may never
end."""
from __future__ import annotations

import sys
import time
from typing import Callable

from ..saying import say
from ..streams import over

FIRST, EVERY = 1.0, 0.5  # seconds before the first line and between two of them
LONG = 10.0  # seconds before the line away from a terminal


class Progress:
    """Shows a text now and then; `end` clears the line. Away from a terminal `lasting` says, behind the text, what ends
    the work; nothing is said there without it."""

    def __init__(self, lasting: str = "") -> None:
        self.next = time.monotonic() + FIRST
        self.late = time.monotonic() + LONG
        self.lasting = lasting
        self.shown = 0

    def __call__(self, told: Callable[[], str]) -> None:
        if not sys.stderr.isatty():
            if self.lasting and time.monotonic() >= self.late:
                say([f"{told()}; {self.lasting}"])
                self.lasting = ""
            return
        if time.monotonic() < self.next:
            return
        self.next = time.monotonic() + EVERY
        text = f"pop: {told()}"
        over(text.ljust(self.shown))
        self.shown = len(text)

    def end(self) -> None:
        """Clears what was shown."""
        if self.shown:
            over(" " * self.shown)
            over("")
            self.shown = 0
