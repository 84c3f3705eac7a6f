"""`pop net [FILE]`: the net as one line of JSON."""
from __future__ import annotations

from ...protocol.nets import compact
from ...statuses import DONE
from ..table.reading import Given
from . import warn
from .inputs import load_given


def run(given: Given) -> int:
    """Prints the net's line; warnings go to standard error."""
    loaded = load_given(given)
    warn(loaded.warnings, loaded.name)
    print(compact(loaded.net.value()))
    return DONE
