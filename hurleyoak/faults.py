"""What is wrong with an input or with words; each text is for its author."""
from __future__ import annotations

from .statuses import REFUSED


class InputFault(Exception):
    """An input cannot be used; the text is for its author, over as many lines as it takes.

    If a place of the input is at fault, `line` and `column` name it, counted from 1. `sentence` says what is wrong
    there, and `quoted` is the line. Otherwise `line` is 0.
    """

    status = REFUSED

    def __init__(self, text: str, line: int = 0, column: int = 0, sentence: str = "", quoted: str = "") -> None:
        super().__init__(text)
        self.line, self.column, self.quoted = line, column, quoted
        self.sentence = sentence or text


class AskFault(Exception):
    """What is asked for can't be done; `told` says why, and what can be asked."""

    def __init__(self, told: str) -> None:
        super().__init__(told)
        self.told = told
