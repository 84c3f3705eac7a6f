"""What is said of a command once: its forms, options with types, limits and defaults, and examples."""
from __future__ import annotations

from dataclasses import dataclass
from enum import Enum


class Kind(Enum):
    """What stands behind an option."""

    FLAG = "nothing"
    WHOLE = "a whole number"
    NUMBER = "a number"
    TEXT = "a text"
    FILE = "a file"
    CHOICE = "one of some words"


@dataclass(frozen=True)
class Option:
    """An option. `low` and `high` are limits of a number, `usual` is what holds where it isn't given.

    `metavar` is what stands for the value in forms; `short` another name, as `-o`; `repeats` says that it may be given
    more than once.
    """

    name: str
    help: str
    kind: Kind = Kind.FLAG
    metavar: str = ""
    usual: int | float | str | None = None
    low: int = 0
    high: int | None = None
    choices: tuple[str, ...] = ()
    short: str = ""
    repeats: bool = False
    is_pair: bool = False  # its value is two words
    joins: tuple[str, ...] = ()  # values that take the next word too

    @property
    def shown(self) -> str:
        """The option as it is typed: `--seed N`."""
        return " ".join(part for part in (self.short or self.name, self.metavar) if part)

    @property
    def told(self) -> str:
        """What it does, with its limits and what holds without it."""
        limits = f", {self.low:,} to {self.high:,}" if self.high is not None else ""
        choices = ": " + " or ".join(self.choices) if self.choices else ""
        usual = (
            f" ({self.usual:,})" if isinstance(self.usual, (int, float)) else f" ({self.usual})" if self.usual else ""
        )
        return self.help + choices + limits + usual


@dataclass(frozen=True)
class Command:
    """A command: its module in `cli/commands` (none for the program's own words), and how many words stand beside
    options."""

    word: str
    short: str
    forms: tuple[str, ...]
    text: str
    examples: tuple[str, ...]
    options: tuple[Option, ...] = ()
    files: bool = True
    module: str = ""
    words: int = 1
    needs: int = 0
    writes: bool = False  # whether it has an `-o` of its own

    def option(self, name: str) -> Option:
        """The option with this name."""
        return next(option for option in self.options if option.name == name)


def whole(
    name: str, help: str, usual: int | None, low: int = 0, high: int | None = None, metavar: str = "N"
) -> Option:
    """An option with a whole number."""
    return Option(name, help, Kind.WHOLE, metavar, usual, low, high)


def number(name: str, help: str, usual: float | None) -> Option:
    """An option with a number that isn't below 0."""
    return Option(name, help, Kind.NUMBER, "N", int(usual) if usual is not None and usual == int(usual) else usual)


def text(name: str, help: str, metavar: str = "TEXT", repeats: bool = False) -> Option:
    """An option with a text."""
    return Option(name, help, Kind.TEXT, metavar, repeats=repeats)


def file(name: str, help: str, short: str = "", metavar: str = "FILE") -> Option:
    """An option with the name of a file."""
    return Option(name, help, Kind.FILE, metavar, short=short)


def choice(name: str, help: str, usual: str | None, *choices: str, metavar: str = "WHAT") -> Option:
    """An option with one of some words."""
    return Option(name, help, Kind.CHOICE, metavar, usual, choices=choices)


def flag(name: str, help: str) -> Option:
    """An option without a value."""
    return Option(name, help)
