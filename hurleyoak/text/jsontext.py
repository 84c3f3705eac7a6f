"""The one reader of JSON: numbers of any length, and nothing that JSON hasn't."""
from __future__ import annotations

import json
from typing import Any

from ..wholes import whole_of


def _no_constant(word: str) -> Any:
    raise ValueError(f"`{word}` is no JSON")


def _number_of(text: str) -> int | float:
    """As the program reads them: -0 is no whole number."""
    return -0.0 if text == "-0" else whole_of(text)


DECODER = json.JSONDecoder(parse_int=_number_of, parse_constant=_no_constant)


def read_json(text: str) -> Any:
    """The value of a text; ValueError or RecursionError where it is none."""
    return DECODER.decode(text)
