"""Runs the program before anything is proved. The toolchain builds it to try it; it is kept, by the checksum of its
sources."""
from __future__ import annotations

import os
import shutil
import subprocess
import tempfile
import time
from pathlib import Path

from ..engine.places import TOP
from ..statuses import NOT_BUILT
from ..saying import say
from ..engine.places import KEPT
from ..engine.sources import checksum

NAME = "unproved-"
MADE = "program"  # the toolchain's name for what it tries
LOOK_SECONDS = 0.005
TRY_SECONDS = "600"


def _catch(room: str, to: Path) -> None:
    """Links the program that the toolchain made in this folder, if it is there by now."""
    for folder, _, names in os.walk(room):
        if MADE in names:
            try:
                os.link(os.path.join(folder, MADE), to)
            except OSError:
                pass


def _try(words: list[str], kept: Path) -> int:
    """Tries the program by the toolchain, and keeps the program that this makes."""
    KEPT.mkdir(parents=True, exist_ok=True)
    room = tempfile.mkdtemp(prefix="try-", dir=KEPT)
    caught = Path(room, "caught")
    try:
        run = subprocess.Popen(
            ["rt", "try", "--seconds", TRY_SECONDS, "--", *words],
            cwd=TOP / "crates" / "pop_main",
            env={**os.environ, "TMPDIR": room},
        )
        while run.poll() is None:
            if not caught.exists():
                _catch(room, caught)
            time.sleep(LOOK_SECONDS)
        if caught.exists() and os.access(caught, os.X_OK):
            for old in KEPT.glob(NAME + "*"):
                old.unlink()
            os.replace(caught, kept)
        return run.returncode
    except OSError as error:
        say([f"`rt` cannot be started: {error.strerror}"])
        return NOT_BUILT
    finally:
        shutil.rmtree(room, ignore_errors=True)


def unproved(words: list[str]) -> int:
    """Answers by a program of which nothing is proved."""
    say(["nothing is proved of this answer"])
    kept = KEPT / f"{NAME}{checksum()[:16]}"
    if os.access(kept, os.X_OK):
        os.execv(kept, [str(kept), *words])
    return _try(words, kept)
