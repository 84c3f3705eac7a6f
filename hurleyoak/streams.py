"""The three streams that a process begins with: what is closed gets a file, and what is shown is filtered.

So no file that is opened later stands in the place of a stream, and nothing that is quoted steers the terminal.
"""
from __future__ import annotations

import os
import sys
from io import TextIOWrapper
from typing import BinaryIO

from .visible import visible

STANDARD_INPUT, STANDARD_OUTPUT, STANDARD_ERROR = 0, 1, 2
# (a closed output refuses what is written, which ends with the status for that; the others are empty, or swallow)
_MODES = {STANDARD_INPUT: os.O_RDONLY, STANDARD_OUTPUT: os.O_RDONLY, STANDARD_ERROR: os.O_WRONLY}


class Shown(TextIOWrapper):
    """A stream for people: what would steer the terminal is written by its number, and so is what its alphabet
    lacks."""

    def __init__(self, buffer: BinaryIO, encoding: str, is_line_buffered: bool) -> None:
        super().__init__(buffer, encoding, errors="backslashreplace", newline="\n", line_buffering=is_line_buffered)

    def write(self, text: str) -> int:
        """Writes the text as it is shown."""
        return super().write(visible(text))

    def over(self, text: str) -> None:
        """Writes over the terminal's line, and goes to no new one."""
        super().write("\r" + visible(text))
        self.flush()


class Told(Shown):
    """Standard error: what can't be written there is lost, and takes no answer with it."""

    def write(self, text: str) -> int:
        """Writes the text as it is shown, if that can be."""
        try:
            return super().write(text)
        except OSError:
            return self._lost(text)

    def flush(self) -> None:
        """Writes what waits, if that can be."""
        try:
            super().flush()
        except OSError:
            self._lost("")

    def _lost(self, text: str) -> int:
        os.dup2(os.open(os.devnull, os.O_WRONLY), STANDARD_ERROR)
        return len(text)


def over(text: str) -> None:
    """Writes over the line of standard error."""
    if isinstance(sys.stderr, Shown):
        sys.stderr.over(text)
    else:
        print("\r" + visible(text), end="", file=sys.stderr, flush=True)


def _is_closed(number: int) -> bool:
    try:
        os.fstat(number)
    except OSError:
        return True
    return False


def _encoding(stream: object) -> str:
    return str(getattr(stream, "encoding", None) or "utf-8")


def open_streams() -> None:
    """Opens the streams that are closed, and puts the filter before the two that are shown."""
    for number, mode in _MODES.items():
        if _is_closed(number):
            opened = os.open(os.devnull, mode)
            if opened != number:
                os.dup2(opened, number)
                os.close(opened)
    sys.stdin = sys.stdin or open(STANDARD_INPUT, encoding="utf-8", closefd=False)
    sys.stdout = _shown(sys.stdout, STANDARD_OUTPUT)
    sys.stderr = _shown(sys.stderr, STANDARD_ERROR)


def _shown(stream: object, number: int) -> Shown:
    is_lines = number == STANDARD_ERROR or os.isatty(number)
    kind = Told if number == STANDARD_ERROR else Shown
    return kind(open(number, "wb", closefd=False), _encoding(stream), is_lines)
