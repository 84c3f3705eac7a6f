"""The words of a command of the program with a file, or a predicate, as an argument."""
from __future__ import annotations

import os
import re
from dataclasses import dataclass, field

from ..text.membersof import WITH
from .words import split_values

PROGRAM_WORDS = ("check", "show", "run", "watch", "settle", "play", "eval", "compile", "replay", "demo")
TAKES_PREDICATE = ("eval", "compile")
TAKES_CROWD = ("run", "watch", "settle", "play", "eval")
NUMBERED: tuple[str, ...] = ("--workers", "--shards", "--turns", "--seed")
HELPERS = "--helpers"
STEPS = "--steps"
TWICE = "--twice"
TEXT = "--text"
FLAGS: dict[str, tuple[str, ...]] = {
    "check": (TWICE,),
    "play": (STEPS,),
    "compile": ("--flocks", "--succinct", "--quick", "--plain", HELPERS, TEXT),
    "replay": ("--watched",),
}
VALUED = (*NUMBERED, HELPERS)
OUTPUT = ("-o", "--output")
TAKES_PROTOCOL = ("check", "show", "run", "watch", "settle", "play")
USAGE = {
    "check": "pop check FILE [--twice] [--with m=5]",
    "show": "pop show FILE [--with m=5]",
    "run": "pop run FILE x=30 y=10 [--workers N] [--shards N] [--turns N] [--seed N] [--with m=5]",
    "watch": "pop watch FILE x=30 y=10 [--workers N] [--shards N] [--turns N] [--seed N] [--with m=5]",
    "settle": "pop settle FILE x=30 y=10 [--with m=5]",
    "play": "pop play FILE x=2 y=1 0,2 1,2 [--steps] [--with m=5]",
    "eval": "pop eval 'x - y < 3' x=2 y=1",
    "compile": "pop compile 'x - y < 3' [--succinct | --quick | --plain | --flocks] [--helpers none] [--text] [-o FILE]",
    "replay": "pop replay FILE [--watched]",
    "demo": "pop demo N",
}
_COUNT = re.compile(r"[^=\s<>!]+=[^=\s]*|=[^=\s]*")
_MEETING = re.compile(r"\s*([^\s,=]*)\s*[,\s]\s*([^\s,=]*)\s*")


class WordFault(Exception):
    """A word cannot stand where it does; the text says what belongs there."""


@dataclass
class Request:
    """What was asked. `options` go to the program as they are; `member` chooses one of a family."""

    command: str
    options: list[str] = field(default_factory=list)
    target: str | None = None
    counts: list[str] = field(default_factory=list)
    meetings: list[str] = field(default_factory=list)
    output: str | None = None
    member: str | None = None
    is_help: bool = False

    @property
    def has_unknown_option(self) -> bool:
        """Whether an option is none of this command: the program refuses it."""
        known = NUMBERED if self.command in ("run", "watch") else FLAGS.get(self.command, ())
        values = {i + 1 for i, word in enumerate(self.options) if word in VALUED}
        return any(word not in known for i, word in enumerate(self.options) if i not in values)

    @property
    def words(self) -> list[str]:
        """The program's words, without those that are the workbench's."""
        ours = {"play": STEPS, "check": TWICE, "compile": TEXT}.get(self.command)
        return [self.command, *(word for word in self.options if word != ours)]


def read_request(arguments: list[str]) -> Request:
    """Sorts the words; WordFault where one has no place."""
    out = Request(arguments[0])
    rest = iter(split_values(arguments[1:], (*VALUED, OUTPUT[1], WITH)))
    for word in rest:
        if word in ("--help", "-h"):
            out.is_help = True
        elif word in OUTPUT:
            out.output = next(rest, None)
            if out.output is None:
                raise WordFault(f"`{word}` is followed by the file to write: {USAGE['compile']}")
        elif word == WITH and out.command in TAKES_PROTOCOL:
            out.member = next(rest, None)
            if out.member is None:
                raise WordFault(f"`{word}` is followed by values of parameters, as in `m=5,r=1`")
        elif (
            word.startswith("-")
            and len(word) > 1
            and not (out.target is None and out.command in TAKES_PREDICATE and not word.startswith("--"))
        ):
            out.options.append(word)
            if word in VALUED:
                out.options += [value for value in [next(rest, None)] if value is not None]
        elif out.has_unknown_option and out.target is not None and word != out.target:
            # (the word behind an unknown option is its value, and not what is to be blamed)
            break
        else:
            _place(out, word)
    if out.command == "demo":
        return out
    if out.target is None and not out.is_help and not out.options:
        what = (
            "a predicate in quotes, or a file,"
            if out.command in TAKES_PREDICATE
            else "a file, or `-` for standard input,"
        )
        raise WordFault(f"{what} is missing: {USAGE[out.command]}")
    return out


def _place(out: Request, word: str) -> None:
    """A word that is no option: the file or predicate, counts, or meetings."""
    if out.command == "demo":
        out.options.append(word)
        return
    is_count = all(_COUNT.fullmatch(piece) for piece in word.split()) and bool(word.split()) and "=" in word
    if out.target is None and (out.command in TAKES_PREDICATE or not is_count or os.path.exists(word)):
        out.target = word
    elif is_count and out.command in TAKES_CROWD:
        out.counts += word.split()
    elif out.command == "play" and "=" not in word and _MEETING.fullmatch(word):
        out.meetings.append(" ".join(_MEETING.fullmatch(word).groups()))  # type: ignore[union-attr]
    elif out.command in TAKES_PREDICATE and out.target is not None and not is_count:
        raise WordFault(f"`{word}` has no place here: put the whole predicate in quotes, as in {USAGE[out.command]}")
    elif is_count and out.target is not None:
        why = (
            "its answer holds for every crowd; `run`, `watch` and `settle` take one"
            if out.command in ("check", "show")
            else USAGE[out.command]
        )
        raise WordFault(f"`{word}`: `{out.command}` takes no crowd: {why}")
    else:
        raise WordFault(f"`{word}` has no place here: {USAGE[out.command]}")
