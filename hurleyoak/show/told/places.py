"""Finds where a value stands in the text of a JSON file."""
from __future__ import annotations

import re
from typing import Any

from ...text.jsontext import DECODER
from ...wholes import is_whole, whole_of

_BLANK = re.compile(r"[ \t\r\n]*")


def _skip(text: str, at: int) -> int:
    found = _BLANK.match(text, at)
    return found.end() if found else at


def _member(text: str, at: int, name: str) -> int | None:
    """The value of an object's member; of two with this name the last one counts."""
    found = None
    at = _skip(text, at + 1)
    while text[at] == '"':
        key, at = DECODER.raw_decode(text, at)
        at = _skip(text, _skip(text, at) + 1)
        if key == name:
            found = at
        _, at = DECODER.raw_decode(text, at)
        at = _skip(text, at)
        if text[at] == "}":
            break
        at = _skip(text, at + 1)
    return found


def _item(text: str, at: int, number: int) -> int | None:
    at = _skip(text, at + 1)
    for _ in range(number):
        _, at = DECODER.raw_decode(text, at)
        at = _skip(text, at)
        if text[at] != ",":
            return None
        at = _skip(text, at + 1)
    return at


def place_of(text: str, path: str) -> int | None:
    """The offset of the value at a path like `/net/leaves/0`, or of the last part of the path that is there."""
    at = _skip(text, 0)
    for step in path.split("/")[1:]:
        try:
            inside = (
                _member(text, at, step) if text[at] == "{" else _item(text, at, int(step)) if text[at] == "[" else None
            )
        except (ValueError, IndexError):
            inside = None
        if inside is None:
            return at
        at = inside
    return at


def value_at(value: Any, path: str) -> tuple[bool, Any]:
    """Whether there is a value at a path, and the value."""
    for step in path.split("/")[1:]:
        if isinstance(value, dict) and step in value:
            value = value[step]
        elif isinstance(value, list) and is_whole(step) and whole_of(step) < len(value):
            value = value[whole_of(step)]
        else:
            return False, None
    return True, value
