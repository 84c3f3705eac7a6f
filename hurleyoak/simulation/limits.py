"""Limits of what may be asked of a simulation."""
from __future__ import annotations

from ..limits import SEED_LIMIT as SEED_LIMIT

MEETING_LIMIT = 10**24
CHANGES_ASKED = 10**15
