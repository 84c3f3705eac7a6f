"""Calls by number, shared among processes: each gives what it gives alone, in the order of the numbers."""
from __future__ import annotations

import multiprocessing
import os
import signal
from typing import Callable, Iterator, TypeVar

from ..endings import end_with_parent

Made = TypeVar("Made")
_call: Callable[[int], object]  # of a process that works for another one


def _begin(call: Callable[[int], object], parent: int) -> None:
    global _call
    signal.signal(signal.SIGTERM, signal.SIG_DFL)
    signal.signal(signal.SIGINT, signal.SIG_IGN)
    end_with_parent(parent)
    _call = call


def _made(number: int) -> object:
    return _call(number)


def shared(call: Callable[[int], Made], numbers: int, jobs: int) -> Iterator[Made]:
    """What a call gives of 0, 1, .. by so many processes; they end where nobody goes on to listen."""
    if jobs <= 1 or numbers <= 1:
        yield from map(call, range(numbers))
        return
    # (forked, so that the call needs no copy, and the program that asked no main module)
    context = multiprocessing.get_context("fork")
    with context.Pool(min(jobs, numbers), _begin, (call, os.getpid())) as pool:
        for made in pool.imap(_made, range(numbers)):
            yield made  # type: ignore[misc]
