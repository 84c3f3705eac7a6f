"""Sentences on a predicate's fault, and on what `compile` cannot build."""
from __future__ import annotations

from typing import Sequence

from ...limits import STATE_LIMIT
from ...text.relaxed import RELAXED_LIMIT, hint, in_form
from ...protocol.predicatereader import read_predicate
from ...protocol.predicates import PredicateFault
from .quoting import listed, meant, quoted

TEXT_LIMIT = 1_048_576
GENERAL = {
    "syntax": "no predicate goes on like this here",
    "unknown": "no variable has this name",
    "large": (
        "a coefficient is at most 2^31 in size, a constant at most 2^40 after `<` and 2^40 - 1 otherwise, a modulus 2"
        " to 200"
    ),
    "deep": (
        "at most 64 parentheses are open at once, and the signs `!`, `&&`, `||`, `=`, `!=` may be charged 64 in all"
    ),
}


def predicate_told(why: str, at: int, text: str, names: Sequence[str], is_guess: bool = False) -> list[str]:
    """What is wrong with a predicate, with the place; `at` is the program's byte offset; `is_guess`: the names are the
    text's own words."""
    own = len(text.encode(errors="surrogateescape")[:at].decode(errors="ignore"))
    told = GENERAL.get(why, "this is no predicate")
    try:
        if len(text) <= RELAXED_LIMIT:
            read_predicate(text, list(names) or ["x"])
    except PredicateFault as fault:
        if fault.why == why and fault.at == own:
            told = fault.told
    except RecursionError:
        pass
    if "\r" in text:
        return ["the line ends in CR and LF; a line ends in LF alone", *quoted(text, own)]
    if why == "unknown":
        word = text[own:].split(" ")[0]
        name = "".join(c for i, c in enumerate(word) if c.isalnum() or c == "_")
        told = (
            f"`{name}` is no variable here; there"
            f" {'is' if len(names) == 1 else 'are'} {listed(names)}{meant(name, names)}"
        )
    if why == "syntax":
        told = hint(text, None if is_guess else names) or told
    more: list[str] = []
    form, _ = in_form(text, None if is_guess else names)
    if form != text:
        more.append(f"in the grammar's form this is: {form}")
    return [told, *quoted(text, own), *more]


def long_told(size: int) -> list[str]:
    """A predicate that is too long."""
    return [f"the predicate has {size:,} bytes; it may have {TEXT_LIMIT:,}"]


def atoms_told(number: int) -> list[str]:
    """Too many atoms."""
    return [f"the predicate has {number} comparisons; `compile` makes a leaf of each, and a net has at most 8"]


def width_told(atom: int, size: int) -> list[str]:
    """An atom that is too wide."""
    return [
        (
            f"the predicate's comparison {atom} (counted from 0) is {size:,} wide (the greatest of its coefficients "
            "and of its constant and 1); `compile` builds up to 80"
        ),
        "`compile --flocks` builds those that say that a sum of variables is at least a power of 2",
    ]


def range_told(atom: int) -> list[str]:
    """An atom whose numbers no succinct leaf takes."""
    return [
        f"the numbers of the predicate's comparison {atom} (counted from 0) are too large for a succinct leaf: they go"
        " up to 2^40"
    ]


def states_told(atom: int, states: int) -> list[str]:
    """An atom whose succinct leaf has too many states."""
    return [
        f"the succinct leaf of the predicate's comparison {atom} (counted from 0) would have {states:,} states; a leaf"
        f" has at most {STATE_LIMIT}"
    ]


def wide_told(atom: int) -> list[str]:
    """A wide atom beside too many others."""
    return [
        f"the predicate's comparison {atom} (counted from 0) is over 42 wide: its leaf has more than 256 states, "
        "and a net with such a leaf has at most 4 leaves"
    ]
