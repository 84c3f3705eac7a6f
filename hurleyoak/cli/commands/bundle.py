"""`pop bundle [FILE]`: the bundle as one line of JSON."""
from __future__ import annotations

from ...text.loaded import strict_bundle
from ...statuses import DONE
from ..table.reading import Given
from . import warn
from .inputs import load_given


def run(given: Given) -> int:
    """Prints the bundle's line, which nothing is claimed of before `pop check` certifies it."""
    loaded = load_given(given)
    warn(loaded.warnings, loaded.name)
    print(strict_bundle(loaded).line())
    return DONE
