"""How stops and events are written: `time 5`, `X = 0`, and `5 add 10 X`."""
from __future__ import annotations

import re

from ..faults import AskFault
from ..text.loaded import Loaded
from .conditions import Condition, condition_of
from .events import Event, event_of

_AT_TIME = re.compile(r"time\s+([0-9]{1,15}(?:\.[0-9]{1,15})?)")
_NUMBER = re.compile(r"[0-9]{1,15}(?:\.[0-9]{1,15})?")
_SIGNS = re.compile(r"[<>=!%≤≥]")


def is_stop(until: str) -> bool:
    """Whether a run stops at a time or at a condition."""
    return bool(_AT_TIME.fullmatch(until) or _SIGNS.search(until))


def stop_of(loaded: Loaded, until: str) -> tuple[Condition | None, float | None]:
    """The condition, or the time; neither for another word."""
    if found := _AT_TIME.fullmatch(until):
        return None, float(found[1])
    return (condition_of(loaded.net, until) if is_stop(until) else None), None


def read_event(loaded: Loaded, text: str) -> Event:
    """The event of a time and what happens then."""
    time, _, rest = text.partition(" ")
    if not _NUMBER.fullmatch(time):
        raise AskFault(f"`--at` is followed by a time and an event, as in `--at 5 'add 10 X'`, found `{text}`")
    return event_of(loaded.net, float(time), rest)
