"""Names of states as a `.pop` file has them."""
from __future__ import annotations

import re

PLAIN = re.compile(r"[A-Za-z0-9_'.^~@$%](?:[A-Za-z0-9_'.^~@$%]|-(?!>))*")


def state_text(name: str) -> str:
    """A state's name as a `.pop` file has it: in quotes where it isn't plain."""
    if PLAIN.fullmatch(name):
        return name
    return '"' + name.replace("\\", "\\\\").replace('"', '\\"') + '"'
