"""The members of a family, each read as a protocol; faults stand at the family's own lines."""
from __future__ import annotations

from typing import Mapping, NoReturn, Sequence

from ..faults import InputFault
from ..wholes import is_whole, whole_of
from .families import member, member_name, members
from .familysums import Values
from .files import load, load_network, load_pop
from .loaded import Loaded
from .networks import ENDING
from .reading_on import faults_in
from .scanner import TextFault


WITH = "--with"


class NoMember(Exception):
    """The words choose no member of a family; the text says what belongs there."""


def as_words(values: Mapping[str, int]) -> str:
    """How a member is chosen: `m=5,r=1`."""
    return ",".join(f"{name}={value}" for name, value in values.items())


def chosen(text: str) -> dict[str, int]:
    """The values in `m=5,r=1`; NoMember where they are none."""
    out: dict[str, int] = {}
    for part in text.replace(",", " ").split():
        name, sign, value = part.partition("=")
        if not sign or not is_whole(value) or name in out:
            raise NoMember(f"`{WITH}` is followed by values of parameters, as in `m=5,r=1`, found `{text}`")
        out[name] = whole_of(value)
    return out


def found_none(name: str) -> NoReturn:
    """Says that a file has no members among which one could choose."""
    raise NoMember(f"`{WITH}` is for a family, and {name} has no line `family`")


def meant(values: Mapping[str, int], found: Sequence[Mapping[str, int]]) -> list[dict[str, int]]:
    """The members that have these values; NoMember where the family hasn't."""
    names = list(found[0])
    if unknown := [name for name in values if name not in names]:
        raise NoMember(f"`{unknown[0]}` is no parameter of the family; it has {', '.join(names)}")
    for name, value in values.items():
        every = {one[name] for one in found}
        if value not in every:
            raise NoMember(f"`{name}` is {min(every)} to {max(every)} in this family, found {value}")
    return [dict(one) for one in found if all(one[name] == value for name, value in values.items())]


def load_chosen(text: str, name: str, words: str | None) -> Loaded:
    """A protocol, or of a family the member that the words choose, as in `m=5,r=1`; a parameter that has one value
    alone needn't be named."""
    found = members_of(text, name)
    if not found:
        return load(text, name) if words is None else found_none(name)
    if words is None and len(found) > 1:
        raise InputFault(f"{name} is a family of {len(found)} protocols: `{WITH} {as_words(found[0])}` chooses one")
    values = chosen(words or "")
    some = meant(values, found)
    for parameter in found[0]:
        every = {one[parameter] for one in found}
        if parameter not in values and len(every) > 1:
            raise NoMember(f"`{WITH}` lacks the parameter `{parameter}`, {min(every)} to {max(every)}")
    return load_member(text, some[0], name)


def load_member(text: str, values: Values, name: str) -> Loaded:
    """A member of a family, called by the file and its values; InputFault at the family's own line."""
    try:
        made = member(text, values)
        read = load_network if name.endswith(ENDING) else load_pop
        return read(made.text, f"{name} with {member_name(values)}", made.source)
    except TextFault as fault:
        raise fault.of_input(name) from None


def members_of(text: str, name: str) -> list[dict[str, int]]:
    """The members of a family; none where the text is of one protocol."""
    try:
        return [] if text.lstrip()[:1] in ("{", "[") else members(text)
    except TextFault as fault:
        raise fault.of_input(name) from None


def member_faults(text: str, values: Values) -> list[TextFault]:
    """All that is wrong with a member of a family, at the family's own lines: the first fault of each line."""
    try:
        made = member(text, values)
    except TextFault as fault:
        return [fault]
    found: dict[int, TextFault] = {}
    for own in map(made.back, faults_in(made.text)):
        found.setdefault(own.line, own)
    return [found[line] for line in sorted(found)]
