"""How far each task of a search is: a share from 0 to 1, noted by the process that works and looked at by the one that
waits."""
from __future__ import annotations

import multiprocessing
from typing import Any, Callable

LOOK = 0.5  # seconds between two looks

Shares = Any  # a list of floats that processes share
Going = Callable[[list[float]], None]  # is told the share of each task

_shares: Shares = [0.0]
_at = 0


def shared(tasks: int) -> Shares:
    """Room for the shares of so many tasks."""
    return multiprocessing.get_context("fork").Array("d", max(tasks, 1), lock=False)


def serve(shares: Shares) -> None:
    """This process notes its shares here."""
    global _shares
    _shares = shares


def begin(task: int) -> None:
    """This process now does this task."""
    global _at
    _at = task if task < len(_shares) else 0
    note(0.0)


def note(share: float) -> None:
    """So much of the task is done."""
    _shares[_at] = min(max(share, 0.0), 1.0)
