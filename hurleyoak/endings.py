"""A process that ends with the one that started it, however that one ends."""
from __future__ import annotations

import ctypes
import os
import signal

_PR_SET_PDEATHSIG = 1


def end_with_parent(parent: int, by: int = signal.SIGKILL) -> None:
    """The system sends this process a signal once its parent, of this number, has ended. (It asks for the thread that
    made the process, which therefore waits for it.)"""
    ctypes.CDLL(None).prctl(_PR_SET_PDEATHSIG, by)
    if os.getppid() != parent:
        os.kill(os.getpid(), by)
