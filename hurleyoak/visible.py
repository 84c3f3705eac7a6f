"""The filters for what is shown: nothing that was quoted from a file, a word or a name steers the terminal, nor begins
a line of its own."""
from __future__ import annotations

import re

# control characters but line feed and tab, those of the upper half, and what turns the direction of writing or is a
# line's end
_HIDDEN = re.compile(
    "[\x00-\x08\x0b-\x1f\x7f-\x9f\u061c\u200b-\u200f\u2028-\u202e\u2060-\u206f\ufeff\ufff9-\ufffb\ud800-\udfff]"
)


def visible(text: str) -> str:
    """The text with each character that would steer the terminal written by its number, as `\\x1b`."""
    return _HIDDEN.sub(_numbered, text)


def one_line(text: str) -> str:
    """The same, without line feeds and tabs too: what is quoted from outside, as a file's name, begins no line."""
    return visible(text).replace("\n", "\\x0a").replace("\t", "\\x09")


def _numbered(match: re.Match[str]) -> str:
    code = ord(match.group())
    return f"\\x{code:02x}" if code < 0x100 else f"\\u{code:04x}"
