"""The JSON value that an input begins with, and its faults as sentences for their author."""
from __future__ import annotations

import json
import re
from typing import Any

from ..faults import InputFault
from ..protocol.nets import FormatFault
from .jsontext import DECODER

_LONE = re.compile("[\ud800-\udfff]")
_BEFORE, _SHOWN = 60, 110


def json_value(text: str, name: str) -> tuple[Any, list[str]]:
    """The JSON value at the start of a text, and the lines behind it."""
    body = text.lstrip()
    try:
        value, end = DECODER.raw_decode(body)
    except ValueError as error:
        if not isinstance(error, json.JSONDecodeError):
            raise InputFault(f"{name}: this is no JSON: {error}") from None
        lines = body.split("\n")
        quoted = lines[error.lineno - 1] if error.lineno <= len(lines) else ""
        skipped = text[: len(text) - len(body)].count("\n")
        cut = max(0, error.colno - _BEFORE)
        shown = quoted[cut : cut + _SHOWN]
        raise InputFault(
            (
                f"{name}:{error.lineno + skipped}:{error.colno}: this is no JSON: {error.msg}\n    {shown}\n   "
                f" {' ' * (error.colno - 1 - cut)}^"
            ),
            error.lineno + skipped,
            error.colno,
            f"this is no JSON: {error.msg}",
            quoted,
        ) from None
    except RecursionError:
        raise InputFault(f"{name}: the JSON is nested too deeply") from None
    if _LONE.search(body[:end]) or _has_lone(value):
        raise InputFault(f"{name}: this is no JSON: half a character, `\\ud800` to `\\udfff`, is alone")
    return value, [line.strip() for line in body[end:].splitlines() if line.strip()]


def _has_lone(value: Any) -> bool:
    """Whether a text in a JSON value has half a character, which no text in UTF-8 has."""
    todo = [value]
    while todo:
        one = todo.pop()
        if isinstance(one, str) and _LONE.search(one):
            return True
        if isinstance(one, dict):
            todo += [*one.keys(), *one.values()]
        elif isinstance(one, list):
            todo += one
    return False


def format_fault(fault: FormatFault, name: str) -> InputFault:
    told = {
        "kind": "is missing, or is another kind of value than it has to be",
        "range": "is out of its limits",
        "name": "is no name that is allowed there",
        "shape": "breaks the shape",
    }
    at = fault.path or "the whole value"
    return InputFault(
        f"fault: format {fault.path} {fault.why}\n{name}:"
        f" {at} {told.get(fault.why, 'is no predicate')} (docs/reference/formats.md)"
    )
