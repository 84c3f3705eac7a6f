"""Runs the toolchain for a build, and ends it, with all that it started, once the build is over: however that ends, the
other end of standard input closes."""
from __future__ import annotations

import ctypes
import os
import signal
import subprocess
import sys
import threading
import time
from typing import Iterator

GRACE = 2.0  # seconds that the toolchain has to put away what it holds
_PR_SET_CHILD_SUBREAPER = 36  # whose parent ends belongs to this process then


def below(parent: int) -> Iterator[int]:
    """The processes that a process started, and those that these started."""
    children: dict[int, list[int]] = {}
    for name in filter(str.isdigit, os.listdir("/proc")):
        try:
            with open(f"/proc/{name}/stat", "rb") as file:
                fields = file.read().rpartition(b")")[2].split()
        except OSError:
            continue
        if fields[0] != b"Z":
            children.setdefault(int(fields[1]), []).append(int(name))
    todo = [parent]
    while todo:
        more = children.get(todo.pop(), [])
        yield from more
        todo += more


def _end_all(number: int) -> bool:
    """Sends a signal to all that is below this process; whether there was any."""
    found = list(below(os.getpid()))
    for pid in found:
        try:
            os.kill(pid, number)
        except OSError:
            pass
    return bool(found)


def _end_with_listener() -> None:
    os.read(0, 1)
    end = time.monotonic() + GRACE
    _end_all(signal.SIGTERM)
    while _end_all(0) and time.monotonic() < end:
        time.sleep(GRACE / 40)
    while _end_all(signal.SIGKILL):
        time.sleep(GRACE / 40)
    os._exit(128 + signal.SIGTERM)


def main(words: list[str]) -> int:
    """Runs the words; their status."""
    ctypes.CDLL(None).prctl(_PR_SET_CHILD_SUBREAPER, 1)
    run = subprocess.Popen(words, stdin=subprocess.DEVNULL, close_fds=False)
    threading.Thread(target=_end_with_listener, daemon=True).start()
    return run.wait()


if __name__ == "__main__":
    os._exit(main(sys.argv[1:]))
