"""One build at a time: the lock, who holds it, and since when."""
from __future__ import annotations

import fcntl
import getpass
import os
import time
from datetime import datetime
from pathlib import Path

from ..wholes import is_whole, whole_of
from .places import KEPT

LOCK = KEPT / "lock"
MINUTE = 60
PROBES, PROBE_SECONDS = 20, 0.01  # how often the lock is tried, as one who asks may have it for a moment


def _user() -> str:
    try:
        return getpass.getuser()
    except (KeyError, OSError, ImportError):
        return str(os.getuid())


class Lock:
    """The lock of the build; `acquire` says who has it where it isn't free."""

    def __init__(self, path: Path = LOCK) -> None:
        path.parent.mkdir(parents=True, exist_ok=True)
        self.file = open(path, "a+", encoding="utf-8")
        self.is_mine = False

    @property
    def number(self) -> int:
        """The lock's descriptor: who inherits it holds the lock too."""
        return self.file.fileno()

    def acquire(self) -> bool:
        """Takes the lock if no build has it, and notes who has it; those who only ask whether it is held are waited
        for."""
        for _ in range(PROBES):
            try:
                fcntl.flock(self.file, fcntl.LOCK_EX | fcntl.LOCK_NB)
            except BlockingIOError:
                time.sleep(PROBE_SECONDS)
                continue
            self._note()
            return True
        return False

    def wait(self) -> None:
        """Waits until the lock is free, and takes it."""
        fcntl.flock(self.file, fcntl.LOCK_EX)
        self._note()

    def _note(self) -> None:
        self.is_mine = True
        self.file.truncate(0)
        self.file.write(f"{os.getpid()} {_user()} {int(time.time())}\n")
        self.file.flush()

    def release(self) -> None:
        """Gives the lock back."""
        self.file.close()


def holder() -> str:
    """Who has the lock, and since when."""
    try:
        words = LOCK.read_text(encoding="utf-8", errors="replace").split()
    except OSError:
        words = []
    if len(words) != 3 or not is_whole(words[2]):
        return "another process is building"
    since = min(whole_of(words[2]), int(time.time()))
    minutes = int(time.time() - since) // MINUTE
    clock = datetime.fromtimestamp(since).strftime("%H:%M")
    return (
        f"process {words[0]} of {words[1]} has been building since {clock}, for"
        f" {minutes} {'minute' if minutes == 1 else 'minutes'}"
    )


def is_held() -> bool:
    """Whether a build goes on. Those who ask share the lock, so that none takes another one for a build."""
    try:
        with open(LOCK, encoding="utf-8") as file:
            fcntl.flock(file, fcntl.LOCK_SH | fcntl.LOCK_NB)
    except BlockingIOError:
        return True
    except OSError:
        return False
    return False
