"""Predicates as people write them, turned into the grammar's form: `x >= y` is read as `x - y >= 0`."""
from __future__ import annotations

import re
from typing import Sequence

from ..protocol.predicatereader import read_predicate
from ..protocol.predicates import Predicate, PredicateFault
from .relaxedreader import FormReader
from .relaxedtokens import NotRead, tokens_of

RELAXED_LIMIT = 1 << 16  # characters of a predicate that a person writes


def names_in(text: str) -> list[str]:
    """The variables of a text in order of mention."""
    return list(dict.fromkeys(t.text for t in tokens_of(text) if t.kind == "name"))


def strict_names(text: str) -> list[str]:
    """The words of a text in the grammar's own reading, in which `and` is a name like any other."""
    return list(dict.fromkeys(w for w in re.findall(r"[A-Za-z_][A-Za-z0-9_]*", text) if w != "mod"))


def in_form(text: str, names: Sequence[str] | None = None, declared: Sequence[str] = ()) -> tuple[str, list[str]]:
    """A predicate in the grammar's form, and its variables in order of mention.

    A text that is in form is left as it is; one that isn't and cannot be brought into it is left too, for the program
    to refuse. `names` are the variables where they are known.
    """
    own = list(names) if names is not None else strict_names(text)
    if len(text) > RELAXED_LIMIT:
        return text, own
    try:
        read_predicate(text, own or ["x"])
        return text, own
    except PredicateFault as fault:
        if fault.why not in ("syntax", "unknown"):
            return text, own
    except RecursionError:
        return text, own
    try:
        read, _ = read_form(text, names, declared)
        return read, list(names) if names is not None else names_in(text)
    except PredicateFault:
        return text, own


def read_form(text: str, names: Sequence[str] | None = None, declared: Sequence[str] = ()) -> tuple[str, Predicate]:
    """A predicate in the grammar's form, and its tree; PredicateFault where people's forms have no such text either.

    This is how predicates are read wherever a person writes them: in files, behind commands and by options.
    """
    if len(text) > RELAXED_LIMIT:
        raise PredicateFault("long", RELAXED_LIMIT, f"a predicate has at most {RELAXED_LIMIT:,} characters here")
    try:
        return text, read_predicate(text, names or strict_names(text) or ["x"])
    except PredicateFault as fault:
        if fault.why not in ("syntax", "unknown"):
            raise
    except RecursionError:
        raise PredicateFault("deep", 0, "it is nested too deeply") from None
    try:
        read = FormReader(text, names, declared).whole()
    except NotRead as none:
        raise PredicateFault("unknown" if "is no variable;" in none.told else "syntax", none.at, none.told) from None
    except RecursionError:
        raise PredicateFault("deep", 0, "it is nested too deeply") from None
    try:
        return read, read_predicate(read, names or names_in(text))
    except PredicateFault as fault:
        raise PredicateFault(fault.why, 0, f"{fault.told}; this was read as {read}") from None


def hint(text: str, names: Sequence[str] | None = None) -> str:
    """What the reading of people's forms says of a text, where it has more to say than what was expected."""
    if len(text) > RELAXED_LIMIT:
        return ""
    try:
        FormReader(text, names or None).whole()
    except NotRead as fault:
        return fault.told if not fault.told.startswith("expected") else ""
    except RecursionError:
        return ""
    return ""
