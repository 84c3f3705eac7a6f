"""Seeds of runs that have nothing in common: a hash of what a run is told by."""
from __future__ import annotations

import hashlib

SEED_BYTES = 8


def seed_of(*words: str) -> int:
    """The seed from 0 to 2^63 - 1 that these words stand for; other words, however near, begin another stream."""
    text = "\n".join(words).encode("utf-8", "surrogateescape")
    return int.from_bytes(hashlib.sha256(text).digest()[:SEED_BYTES], "big") >> 1
