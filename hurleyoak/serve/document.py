"""The one file that the page may write: the one that was named when the server was started."""
from __future__ import annotations

import hashlib
from pathlib import Path

from ..faults import InputFault
from ..writing import write_text
from .limits import TEXT_LIMIT


class Changed(Exception):
    """The file was changed by somebody else since the page read it."""


def is_whole_text(text: str) -> bool:
    """Whether a text can be written as UTF-8: JSON may have halves of signs."""
    return not any("\ud800" <= sign <= "\udfff" for sign in text)


class Document:
    """A file with its marks: what a text is known by."""

    def __init__(self, path: str) -> None:
        self.path = Path(path).absolute()
        self.name = self.path.name

    @staticmethod
    def mark(text: str) -> str:
        """What a text is known by."""
        return hashlib.sha256(text.encode("utf-8", "surrogateescape")).hexdigest()

    def text(self) -> str:
        """The text, empty where there is no file yet; InputFault where it cannot be read."""
        if not self.path.exists():
            return ""
        try:
            with open(self.path, "rb") as file:
                data = file.read(TEXT_LIMIT + 1)
            if len(data) > TEXT_LIMIT:
                raise InputFault(
                    f"{self.path}: the file has over {TEXT_LIMIT >> 20} MiB, which is too much for the page"
                )
            return data.decode("utf-8-sig")
        except OSError as error:
            raise InputFault(f"{self.path}: {error.strerror}") from None
        except UnicodeDecodeError as error:
            raise InputFault(f"{self.path}: byte {error.start} is no UTF-8") from None

    def save(self, text: str, seen: str) -> str:
        """Writes the text whole or not at all, and gives its mark; Changed where the file isn't the one that was
        seen."""
        if self.mark(self.text()) != seen:
            raise Changed
        write_text(str(self.path), text)
        return self.mark(text)
