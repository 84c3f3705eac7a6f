"""The time of processors that a search takes."""
from __future__ import annotations

import os


def worked() -> float:
    """Seconds that this process has worked, and those that it started and that have ended."""
    return sum(os.times()[:4])
