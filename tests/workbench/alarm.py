"""A time limit for each test in a browser: one that hangs fails, and the tests after it are skipped."""
from __future__ import annotations

import os
import signal
from types import FrameType

import pytest

# seconds that a test waits for something; on a machine with other work to do one asks for more
PATIENCE = int(os.environ.get("WORKBENCH_PATIENCE", "90"))
SECONDS = 2 * PATIENCE  # that a test in a browser may take, with what it needs, and as many its end
BROWSERS = ("browser", "seen")  # what a test in a browser asks for
slow: list[str] = []  # tests that took longer


def is_limited(item: pytest.Item) -> bool:
    """Whether a test drives a browser."""
    return any(name in BROWSERS for name in getattr(item, "fixturenames", ()))


def begin(item: pytest.Item) -> None:
    """Fails what takes longer than the limit from now on, also where it waits for an answer of the browser."""
    if not is_limited(item):
        return

    def over(number: int, frame: FrameType | None) -> None:
        slow.append(item.name)
        pytest.fail(f"it took over {SECONDS} seconds: the browser hangs, or is slow")

    signal.signal(signal.SIGALRM, over)
    signal.alarm(SECONDS)


def end() -> None:
    """Nothing is limited any more."""
    signal.alarm(0)


def skip_after_slow(item: pytest.Item) -> None:
    """Skips a test in a browser where one before took too long."""
    if slow and is_limited(item):
        pytest.skip(f"the browser is too slow here: {slow[0]} took over {SECONDS} seconds")
