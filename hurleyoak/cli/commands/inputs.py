"""The input of a command: a file or standard input, and of a family the member that `--with` names."""
from __future__ import annotations

from ..usage import UsageFault
from ...text.files import STANDARD_INPUT, read_text
from ...text.given import with_predicate
from ...text.loaded import Loaded
from ...text.membersof import (
    WITH as WITH,
    NoMember,
    as_words as as_words,
    load_chosen,
    load_member as load_member,
    members_of as members_of,
)
from ...visible import one_line
from ..table.reading import Given
from . import warn


def named(path: str) -> str:
    """How an input is called."""
    return "standard input" if path == STANDARD_INPUT else one_line(path)


def load_given(given: Given, path: str | None = None, text: str | None = None) -> Loaded:
    """The input that the words name, or its text where that was read. Of a family with several members `--with`
    chooses one."""
    path = given.path if path is None else path
    return load_read(given, path, read_text(path) if text is None else text)


def load_read(given: Given, path: str, text: str) -> Loaded:
    """The same, of an input whose text was read."""
    try:
        return load_chosen(text, named(path), given.text(WITH))
    except NoMember as fault:
        raise UsageFault(str(fault)) from None


def loaded_of(given: Given, text: str | None = None) -> Loaded:
    """The input with its predicate, the second word where the file has none; warnings are said."""
    loaded = load_given(given, text=text)
    if len(given.words) == 2:
        loaded = with_predicate(loaded, given.words[1])
    warn(loaded.warnings, loaded.name)
    return loaded
