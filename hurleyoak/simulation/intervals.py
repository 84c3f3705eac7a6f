"""Intervals of 95 per cent: of a share by Wilson's score, of a mean by Student's law."""
from __future__ import annotations

from math import sqrt
from statistics import NormalDist, stdev
from typing import Sequence

SURE = 0.95  # the share of intervals that have the true value in them


def wilson(found: int, runs: int) -> tuple[float, float]:
    """Where the share lies, of which so many of the runs are an example (Wilson 1927)."""
    wide = NormalDist().inv_cdf((1 + SURE) / 2)
    share, weight = found / runs, 1 + wide * wide / runs
    middle = (share + wide * wide / (2 * runs)) / weight
    half = wide * sqrt(share * (1 - share) / runs + wide * wide / (4 * runs * runs)) / weight
    return max(0.0, middle - half), min(1.0, middle + half)


def margin(values: Sequence[float]) -> float | None:
    """How far the true mean may be from that of the values; None for one value, or where scipy is missing."""
    if len(values) < 2:
        return None
    try:
        from scipy.special import stdtrit
    except ImportError:
        return None
    return float(stdtrit(len(values) - 1, (1 + SURE) / 2)) * stdev(values) / sqrt(len(values))
