"""Values of a request, each checked; a Fault says what is wrong with one."""
from __future__ import annotations

from typing import Any, Callable

from ..faults import AskFault

Request = dict[str, Any]
Tell = Callable[[str, dict[str, Any]], None]


def text_in(request: Request, name: str, usual: str = "") -> str:
    """A text."""
    value = request.get(name, usual)
    if not isinstance(value, str):
        raise AskFault(f"`{name}` has to be a text")
    return value


def whole_in(request: Request, name: str, usual: int, low: int, high: int) -> int:
    """A whole number within limits."""
    value = request.get(name, usual)
    if isinstance(value, bool) or not isinstance(value, int) or not low <= value <= high:
        raise AskFault(f"`{name}` is a whole number from {low:,} to {high:,}")
    return value


def flag_in(request: Request, name: str) -> bool:
    """Whether something is asked for."""
    return request.get(name) is True


def counts_in(request: Request) -> list[str]:
    """The counts of the variables as words, `x=30`."""
    value = request.get("counts", {})
    if not isinstance(value, dict):
        raise AskFault("`counts` has a number for each variable")
    words = []
    for name, count in value.items():
        if isinstance(count, bool) or not isinstance(count, int) or count < 0:
            raise AskFault(f"the count of `{name}` is a whole number, 0 or more")
        words.append(f"{name}={count}")
    return words
