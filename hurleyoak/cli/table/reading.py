"""Reads the words of a command by the table: `--seed 3`, `--seed=3`, or a beginning of an option that is no
other's."""
from __future__ import annotations

import difflib
from argparse import Action, ArgumentError, ArgumentParser, Namespace
from dataclasses import dataclass
from typing import Any, NoReturn, Sequence

from ..usage import UsageFault
from ...text.files import STANDARD_INPUT
from ...wholes import is_whole, whole_of
from .shape import Command, Kind, Option

WORDS = "words of the command"
DECIMAL_SIGNS = 20
END = "--"


@dataclass(frozen=True)
class Given:
    """The words of a command, and the values of its options: the usual ones where none is given."""

    command: Command
    words: list[str]
    values: dict[str, Any]
    named: frozenset[str] = frozenset()  # the options that stand among the words

    @property
    def path(self) -> str:
        """The first word, a file; standard input where there is none."""
        return self.words[0] if self.words else STANDARD_INPUT

    def whole(self, name: str) -> int:
        """A whole number, which is given or has a usual value."""
        return int(self.values[name])

    def number(self, name: str) -> float:
        """A number, which is given or has a usual value."""
        return float(self.values[name])

    def text(self, name: str) -> str | None:
        """A text, if it is given or has a usual value."""
        value = self.values[name]
        return None if value is None else str(value)

    def texts(self, name: str) -> list[str]:
        """The texts of an option that may be given more than once."""
        return list(self.values[name] or ())

    def has(self, name: str) -> bool:
        """Whether a flag stands there, or an option has a value."""
        value = self.values[name]
        return value is not None and value is not False


class _Once(Action):
    """An option that stands once."""

    def __call__(
        self, parser: ArgumentParser, space: Namespace, values: Any, option_string: str | None = None
    ) -> None:
        seen = space.__dict__.setdefault("seen", set())
        if self.dest in seen:
            raise UsageFault(f"`{option_string}` is named twice")
        seen.add(self.dest)
        setattr(space, self.dest, True if self.nargs == 0 else values)


class _Parser(ArgumentParser):
    """A parser whose faults are ours."""

    def error(self, message: str) -> NoReturn:
        raise UsageFault(message)


def takes(command: Command) -> str:
    """What a command takes, for a fault."""
    return "it takes " + " or ".join(f"`{form}`" for form in command.forms)


def _parser(command: Command) -> _Parser:
    parser = _Parser(prog=f"pop {command.word}", add_help=False, exit_on_error=False)
    for option in command.options:
        names = [option.name, option.short] if option.short else [option.name]
        if option.repeats:
            parser.add_argument(*names, dest=option.name, action="append")
        elif option.kind is Kind.FLAG:
            parser.add_argument(*names, dest=option.name, action=_Once, nargs=0, default=False)
        else:
            parser.add_argument(*names, dest=option.name, action=_Once, default=option.usual)
    return parser


def _is_number(text: str) -> bool:
    whole, _, part = text.partition(".")
    return len(text) <= DECIMAL_SIGNS and (whole + part).isascii() and (whole + part).isdigit()


def _value(option: Option, text: Any) -> Any:
    """The value that a text stands for; UsageFault where it is none."""
    if not isinstance(text, str):
        return text
    if option.kind is Kind.CHOICE and text not in option.choices:
        told = " or ".join(f"`{choice}`" for choice in option.choices)
        raise UsageFault(f"`{option.name}` is followed by {told}, found `{text}`")
    if option.kind is Kind.NUMBER:
        if not _is_number(text):
            raise UsageFault(f"`{option.name}` is followed by a number, found `{text}`")
        return float(text)
    if option.kind is Kind.WHOLE:
        value = whole_of(text) if is_whole(text) else -1
        if value < option.low or option.high is not None and value > option.high:
            limits = f" from {option.low} to {option.high}" if option.high is not None else ""
            raise UsageFault(f"`{option.name}` is followed by a whole number{limits}, found `{text}`")
        return value
    return text


def _unknown(command: Command, word: str) -> UsageFault:
    known = [option.name for option in command.options]
    near = difflib.get_close_matches(word.partition("=")[0], known, 1)
    meant = f"; did you mean `{near[0]}`?" if near else ""
    return UsageFault(f"`{word}` is no option here{meant}: {takes(command)}")


def _split(command: Command, arguments: Sequence[str]) -> tuple[list[str], list[str]]:
    """Words, and options with their values. A word with a blank is a predicate, whatever it begins with."""
    names = {name: option for option in command.options for name in (option.name, option.short) if name}
    words: list[str] = []
    options: list[str] = []
    rest = iter(arguments)
    for word in rest:
        if word == STANDARD_INPUT or not word.startswith("-") or " " in word:
            words.append(word)
            continue
        name, sign, value = word.partition("=")
        found = [full for full in names if full == name] or [
            full for full in names if full.startswith(name) and name.startswith("--")
        ]
        if len(found) != 1:
            raise _unknown(command, word)
        if names[found[0]].kind is Kind.FLAG:
            options.append(word)
            continue
        value = value if sign else next(rest, END)
        if names[found[0]].is_pair and not sign:
            value = " ".join([value, next(rest, END)])
        elif value in names[found[0]].joins and not sign:
            value = " ".join([value, next(rest, END)])
        # (argparse takes such a value for the end of all options)
        if value == END or value.endswith(f" {END}"):
            raise UsageFault(f"`{name}` is followed by its value: {takes(command)}")
        options.append(f"{found[0]}={value}" if found[0].startswith("--") else found[0] + value)
    return words, options


def read_words(command: Command, arguments: Sequence[str]) -> Given:
    """The words of a command; UsageFault says what it takes."""
    words, options = _split(command, arguments)
    try:
        space = _parser(command).parse_args(options)
    except ArgumentError as fault:
        raise UsageFault(f"{fault.message}: {takes(command)}") from None
    if not command.needs <= len(words) <= command.words:
        raise UsageFault(takes(command))
    values = {option.name: _value(option, getattr(space, option.name)) for option in command.options}
    return Given(command, words, values, frozenset(space.__dict__.get("seen", ())))
