"""When a search ends. Its parts have their time of the processor, so that a busy machine cuts none of them short; all
of it ends at a moment by the wall."""
from __future__ import annotations

import math
import time
from contextlib import contextmanager
from dataclasses import dataclass
from typing import Callable, Iterator, TypeVar

USED = 0.8  # a call that was cut, and had this part of its seconds from the processor, isn't made again
GROWTH = 2.0
MOST_GROWTH = 16.0
SPEED = 1e6  # the clock's, once the time by the wall is up: all deadlines pass at once
LEAST = 0.01  # seconds of a call at least

Outcome = TypeVar("Outcome")


_end = math.inf


def end_at(moment: float) -> None:
    """All that this process searches ends at this moment of the monotonic clock."""
    global _end
    _end = moment


@contextmanager
def ending(seconds: float) -> Iterator[None]:
    """What is searched meanwhile ends after so many seconds by the wall."""
    before = _end
    end_at(min(before, time.monotonic() + seconds))
    try:
        yield
    finally:
        end_at(before)


def clock() -> float:
    """The seconds that this process has worked; once the time by the wall is up, it runs on very fast."""
    return time.process_time() + SPEED * max(0.0, time.monotonic() - _end)


def worked(seconds: float, call: Callable[[float], Outcome], is_cut: Callable[[Outcome], bool]) -> Outcome:
    """What a call gives that counts seconds by the wall: where it was cut and the processor was elsewhere, it is made
    again with more."""
    wall = seconds
    while True:
        start = clock()
        left = _end - time.monotonic()
        out = call(max(min(wall, left), LEAST))
        used = clock() - start
        if not is_cut(out) or used >= USED * seconds or wall >= min(MOST_GROWTH * seconds, left):
            return out
        wall *= GROWTH


@dataclass
class Limit:
    """Ends when this process has worked until the deadline."""

    deadline: float

    def after(self, seconds: float) -> "Limit":
        """The same, but this process works for at most so many seconds from now on."""
        return Limit(min(self.deadline, clock() + seconds))

    def is_over(self) -> bool:
        """Whether the time is up."""
        return clock() >= self.deadline
