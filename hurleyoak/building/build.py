"""Proves and builds the program; the one that stands goes on being used until the new one is there.

The toolchain's gate does it, in a folder of its own, over the crates that the program stands on and without must-fail
edits. It keeps what it has proved beside the toolchain. So a later build proves what changed, and the crates above it.
"""
from __future__ import annotations

import os
import re
import select
import shutil
import subprocess
import sys
import tempfile
import time
from pathlib import Path
from typing import IO

from ..engine.places import BUILT, STANDING, TOP
from ..statuses import DONE, NOT_BUILT
from ..saying import say
from ..streams import over
from ..engine import sources
from ..engine.lock import LOCK, Lock, holder
from . import toolchain
from .callers import Callers

FIRST_TIME = "the first time this takes about half an hour on four processors"
_CRATE = re.compile(r"rt: ([a-z_0-9]+)(?: proved$| is kept:)")
_PROVED = ": proved\n"  # the end of what the gate says of a function
EVERY = 1.0  # seconds between two looks at the clock on a terminal
WIDTH = 79
HANDLES = TOP / "HANDLES"  # what the crates may reach


class CallerGone(Exception):
    """Who began the build has ended."""


class Progress:
    """Which crate was checked last: a line for each, or on a terminal one line with the time."""

    def __init__(self) -> None:
        self.all = len(_crates())
        self.seen: dict[str, None] = {}
        self.start = time.monotonic()
        self.on_terminal = sys.stderr.isatty()

    def line(self, text: str) -> None:
        """Looks at a line of the toolchain."""
        found = _CRATE.match(text)
        if found and found.group(1) not in self.seen:
            self.seen[found.group(1)] = None
            if not self.on_terminal:
                say([f"{len(self.seen)} of {self.all}: {found.group(1)}"])
        self.tick()

    def tick(self) -> None:
        """Shows the time on a terminal."""
        if self.on_terminal:
            minutes, seconds = divmod(int(time.monotonic() - self.start), 60)
            last = f": {next(reversed(self.seen))}" if self.seen else ""
            text = f"pop: {len(self.seen)} of {self.all} crates are proved, {minutes}:{seconds:02}{last}"
            over(text[:WIDTH].ljust(WIDTH))

    def end(self) -> None:
        """Goes to a new line."""
        if self.on_terminal:
            print(file=sys.stderr, flush=True)


def _crates() -> set[str]:
    """The programs' crates, and all that they stand on."""
    return {crate for name in sources.programs() for crate in sources.needed(name)}


def _copy_sources(room: Path) -> None:
    """Copies the crates that the programs stand on, without their must-fail edits."""
    below = _crates()
    for name in sorted(below):
        of, to = sources.CRATES / name, room / "crates" / name
        shutil.copytree(of, to, ignore=shutil.ignore_patterns("out", "must-fail"))
    lines = sources.LIST.read_text().splitlines(keepends=True)
    (room / sources.LIST.name).write_text("".join(line for line in lines if line.split(":")[0].strip() in below))
    if HANDLES.exists():
        shutil.copy2(HANDLES, room)


def _prove(folder: Path, log: list[str], progress: Progress, lock: Lock, callers: Callers | None) -> bool:
    """Runs the toolchain's gate over a folder; whether all passed. CallerGone where one of the callers has ended."""
    if shutil.which("rt") is None:
        log.append("rt: no such file; the toolchain's command `rt` has to be on the path\n")
        return False
    # (the toolchain's command is Python's, and keeps its lines back where nobody asks for them; it has the lock too,
    # so that no second build begins before it has ended)
    run = subprocess.Popen(
        [sys.executable, "-E", "-s", "-P", toolchain.__file__, "rt", "ci"],
        cwd=folder,
        env={**os.environ, "PYTHONUNBUFFERED": "1"},
        stdin=subprocess.PIPE,
        stdout=subprocess.PIPE,
        stderr=subprocess.STDOUT,
        pass_fds=[lock.number],
        start_new_session=True,
    )
    assert run.stdin is not None and run.stdout is not None
    try:
        _follow(run.stdout, log, progress, callers)
        return run.wait() == 0
    finally:
        run.stdin.close()
        run.wait()
        run.stdout.close()


def _follow(stdout: IO[bytes], log: list[str], progress: Progress, callers: Callers | None) -> None:
    """Reads what the toolchain says to its end."""
    rest = b""
    while True:
        if callers is not None and callers.has_ended():
            raise CallerGone
        if not select.select([stdout], [], [], EVERY)[0]:
            progress.tick()
            continue
        piece = os.read(stdout.fileno(), 1 << 16)
        *lines, rest = (rest + piece).split(b"\n")
        for line in lines + ([rest] if not piece and rest else []):
            log.append(line.decode(errors="replace") + "\n")
            progress.line(log[-1])
        if not piece:
            return


def _keep_standing() -> None:
    if os.access(BUILT, os.X_OK):
        made = STANDING.with_suffix(".new")
        shutil.copy2(BUILT, made)
        os.replace(made, STANDING)


def build(is_asked: bool = False) -> int:
    """Builds where the program is missing or older than its sources; 0, or 9 where there is none then. Unless a build
    was asked for by its own word, it ends with who called the command that began it."""
    callers = None if is_asked else Callers()
    try:
        lock = Lock()
    except OSError as error:
        say(
            [
                f"{error.filename or LOCK}: {error.strerror}; build it as a user who may write there, or name a"
                " program by POP_MAIN"
            ]
        )
        return NOT_BUILT
    try:
        if not lock.acquire():
            say([f"{holder()}; waiting for it"])
            lock.wait()
        if sources.is_of_sources():
            return DONE
        return _build(lock, callers)
    except CallerGone:
        say(
            [
                "the build has ended with the command that began it; what is proved is kept, and `pop build` goes on from it"
            ]
        )
        return NOT_BUILT
    except OSError as error:
        say([f"{error.filename or TOP}: {error.strerror}; the program is not built"])
        return NOT_BUILT
    finally:
        if lock.is_mine:
            STANDING.unlink(missing_ok=True)
        lock.release()


def _take(program: Path, place: Path) -> None:
    """Puts a program in the place of the built one."""
    place.parent.mkdir(parents=True, exist_ok=True)
    made = place.with_suffix(".new")
    shutil.copy2(program, made)
    os.replace(made, place)


def _build(lock: Lock, callers: Callers | None) -> int:
    of = sources.checksum()
    _keep_standing()
    say([f"proving and building the program; {FIRST_TIME}"])
    log: list[str] = []
    progress = Progress()
    with tempfile.TemporaryDirectory(prefix="pop-build-") as folder:
        _copy_sources(Path(folder))
        is_proved = _prove(Path(folder), log, progress, lock, callers)
        progress.end()
        made = {Path(folder, "crates", name, "out", name): place for name, place in sources.programs().items()}
        if is_proved and all(os.access(program, os.X_OK) for program in made):
            for program, place in made.items():
                _take(program, place)
            sources.record(of)
            return DONE
    sys.stderr.write("".join(line for line in log if not line.endswith(_PROVED)))
    say(["the program could not be built; its log is above"])
    return NOT_BUILT
