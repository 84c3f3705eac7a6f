"""Finds the proved program and asks it. Whatever the workbench shows as a verdict comes from here."""
from __future__ import annotations

import os
import signal
import subprocess
from dataclasses import dataclass

from ..statuses import (
    DONE as DONE,
    USAGE as USAGE,
    REFUSED as REFUSED,
    REJECTED as REJECTED,
    UNDECIDED as UNDECIDED,
    DIFFERS as DIFFERS,
    READ_FAULT as READ_FAULT,
    WRITE_FAULT as WRITE_FAULT,
    NO_MEMORY as NO_MEMORY,
    NOT_BUILT as NOT_BUILT,
)
from .claims import NO_CLAIM, Claim, claimed
from .places import BUILT as BUILT, BY_SCRIPT as BY_SCRIPT, STANDING as STANDING, TOP as TOP, VARIABLE as VARIABLE

SIGNAL_STATUS = 128  # and the signal's number, as shells have it


@dataclass(frozen=True)
class Answer:
    """What the program printed on its standard output, and its status."""

    text: str
    status: int

    @property
    def first_line(self) -> str:
        """The first line, without its line feed."""
        return self.text.split("\n", 1)[0]

    @property
    def claim(self) -> Claim:
        """What it claims of a bundle: nothing where its status is another than DONE."""
        return claimed(self.text) if self.status == DONE else NO_CLAIM


class NoProgram(Exception):
    """The program is not there; the text says where it was looked for."""


class EndedBySignal(Exception):
    """The program was ended by a signal, and answered nothing that counts; `status` is the shell's for it."""

    def __init__(self, number: int) -> None:
        super().__init__(f"the program was ended by signal {number}{_signal_name(number)}; it answered nothing")
        self.number, self.status = number, SIGNAL_STATUS + number


def _signal_name(number: int) -> str:
    try:
        return f" ({signal.Signals(number).name})"
    except ValueError:
        return ""


def ended(status: int) -> int:
    """A status of a program that ended by itself; EndedBySignal where it didn't."""
    if status < 0 or status > SIGNAL_STATUS:
        raise EndedBySignal(-status if status < 0 else status - SIGNAL_STATUS)
    return status


def program_path() -> str:
    """The program: what POP_MAIN names, else the one that stands while a build goes on, else the built one, else
    bin/pop, which builds it."""
    named = os.environ.get(VARIABLE)
    if named:
        if not os.access(named, os.X_OK):
            raise NoProgram(f"{VARIABLE} names {named}, which is no program")
        return named
    if os.access(STANDING, os.X_OK):
        from .lock import is_held

        if is_held():
            return str(STANDING)
    if os.access(BUILT, os.X_OK):
        return str(BUILT)
    if os.access(BY_SCRIPT, os.X_OK):
        return str(BY_SCRIPT)
    raise NoProgram(f"the proved program is not at {BUILT}; bin/pop builds it, or {VARIABLE} names it")


def ask(words: list[str], text: str, seconds: float | None = None) -> Answer:
    """Runs the program with these words over a text.

    NoProgram where there is none; EndedBySignal where a signal ended it; subprocess.TimeoutExpired where it takes
    longer than `seconds`.
    """
    path = program_path()
    # (bin/pop says on standard error that it builds the program first)
    said = None if path == str(BY_SCRIPT) else subprocess.DEVNULL
    try:
        run = subprocess.run(
            [path, *words],
            input=text.encode("utf-8", "surrogateescape"),
            stdout=subprocess.PIPE,
            stderr=said,
            timeout=seconds,
            check=False,
        )
    except OSError as error:
        raise NoProgram(f"{path} cannot be started: {error.strerror}") from None
    return Answer(run.stdout.decode(errors="replace"), ended(run.returncode))


def needs_claim(status: int, claim: Claim) -> None:
    """NoProgram where a status says that a bundle is certified, and no line does."""
    if status == DONE and not claim:
        raise NoProgram(
            f"{program_path()} isn't the program: it ended with status {DONE}, and printed no `certified` or `stable`"
        )


def check(bundle_line: str) -> Answer:
    """The program's verdict on a bundle's line; where its status is DONE, a claim stands in its text."""
    answer = ask(["check"], bundle_line + "\n")
    needs_claim(answer.status, answer.claim)
    return answer
