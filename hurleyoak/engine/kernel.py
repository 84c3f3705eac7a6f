"""The kernel: a process of the proved program that runs crowds, and what it has come to."""
from __future__ import annotations

import os
import subprocess
from dataclasses import dataclass
from typing import Iterator

from ..endings import end_with_parent
from .places import KERNEL, KERNEL_VARIABLE
from .program import NoProgram


@dataclass(frozen=True)
class State:
    """What a run has come to: `since` is the meeting since which all agents output the same, None where they don't;
    the counts are by the table's words."""

    meetings: int
    changes: int
    last_change: int
    since: int | None
    is_terminal: bool
    counts: list[int]


@dataclass(frozen=True)
class Row:
    """The counts at a meeting, of a curve."""

    meetings: int
    counts: list[int]


def kernel_path() -> str:
    """The kernel: what POP_KERNEL names, else the built one; NoProgram where there is none."""
    named = os.environ.get(KERNEL_VARIABLE)
    if named and not os.access(named, os.X_OK):
        raise NoProgram(f"{KERNEL_VARIABLE} names {named}, which is no program")
    if not named and not os.access(KERNEL, os.X_OK):
        raise NoProgram("the kernel isn't built; `pop build` proves and builds it")
    return named or str(KERNEL)


class Kernel:
    """A process of the kernel. Lines are sent to it, and it answers a `go` by what the run has come to."""

    def __init__(self) -> None:
        parent = os.getpid()
        self.process = subprocess.Popen(
            [kernel_path()],
            stdin=subprocess.PIPE,
            stdout=subprocess.PIPE,
            text=True,
            start_new_session=True,
            preexec_fn=lambda: end_with_parent(parent),
        )
        self.text = ""

    def begin(self, text: str) -> None:
        """Has it read the lines of a table and of counts, unless it has read them last."""
        if text != self.text:
            self.send(text)
            self.text = text

    def send(self, text: str) -> None:
        """Sends lines."""
        assert self.process.stdin is not None
        self.process.stdin.write(text)

    def tell(self) -> None:
        """Has it write the answers that stand."""
        assert self.process.stdin is not None
        self.send("tell\n")
        self.process.stdin.flush()

    def _lines(self) -> Iterator[tuple[str, list[int]]]:
        assert self.process.stdout is not None
        for line in self.process.stdout:
            word, *numbers = line.split()
            yield word, list(map(int, numbers))
        raise NoProgram("the kernel has ended before it answered")

    def answer(self) -> tuple[list[Row], State]:
        """The next answer: the rows of the curve, and what the run has come to."""
        rows = []
        for word, numbers in self._lines():
            if word == "row":
                rows.append(Row(numbers[0], numbers[1:]))
            else:
                meetings, changes, last, agreed, since, terminal, *counts = numbers
                return rows, State(meetings, changes, last, since if agreed else None, bool(terminal), counts)
        raise AssertionError("an answer ends with what the run has come to")


def go_line(meetings: int, changes: int, agreed: tuple[bool, bool], work: int) -> str:
    """The line by which a run goes on: to so many meetings or changes in all, to where none, or all, output true, or by
    so many words and draws."""
    return f"go {meetings} {changes} {int(agreed[0])} {int(agreed[1])} {work}\n"
