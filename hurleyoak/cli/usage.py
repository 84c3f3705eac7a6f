"""The fault of a command's words."""
from __future__ import annotations

from ..faults import AskFault


class UsageFault(AskFault):
    """The words of a command mean nothing; the text says what it takes."""
