"""Makes the program's input of a file and words: one line each for the net or bundle, the crowd, the predicate, the
meetings."""
from __future__ import annotations

import os
from dataclasses import dataclass, field
from typing import Any

from ..text.cautions import cautions
from ..faults import InputFault
from ..text.files import ASSUMES, STANDARD_INPUT, load, read_text
from ..text.given import READ_AS
from ..text.loaded import strict_bundle
from ..text.membersof import NoMember, load_chosen
from ..text.jsontext import DECODER
from ..protocol.nets import VARIABLE_LIMIT, FormatFault, compact, is_variable_name, net_of
from ..proof.bundles import Bundle
from ..text.relaxed import in_form
from ..visible import one_line
from .request import TAKES_PREDICATE, Request, WordFault

RELATION_SIGNS = "<>=≤≥≠≡"
PLAYS = "play"


@dataclass
class Asked:
    """What the program is asked: its words and the lines of its input.

    `names` says for a reader where each line comes from. `original` is the text of the JSON if its lines were joined.
    `bundle` is the one that was made of a `.pop` file. `notes` say what was read in another form.
    """

    words: list[str]
    lines: list[str] = field(default_factory=list)
    names: list[str] = field(default_factory=list)
    file: str = ""
    original: str = ""
    is_stdin: bool = False
    bundle: Bundle | None = None
    is_strict: bool = False
    has_guessed_names: bool = False
    notes: list[str] = field(default_factory=list)

    def add(self, line: str, name: str) -> None:
        """One more line."""
        self.lines.append(line)
        self.names.append(name)

    def text(self) -> str:
        """The input."""
        return "".join(line + "\n" for line in self.lines)


def cut_json(text: str) -> tuple[str, list[str], Any]:
    """JSON on one line, the lines behind it, and its value; None where it is malformed.

    White space at the ends of lines is no part of a JSON text, so it may go. A malformed text is joined by tabs, which
    are white space too, and keep a text malformed whose strings go over lines.
    """
    body = text.lstrip()
    try:
        value, end = DECODER.raw_decode(body)
    except (ValueError, RecursionError):
        return "\t".join(body.splitlines()), [], None
    joined = "".join(line.strip() for line in body[:end].split("\n"))
    behind = body[end:]
    if behind.strip() and "\n" not in behind[: len(behind) - len(behind.lstrip())]:
        # something on the JSON's last line: left there, for the program to refuse
        first, _, behind = behind.partition("\n")
        joined += first
    lines = behind.split("\n")
    while lines and not lines[0].strip():
        lines.pop(0)
    while lines and not lines[-1].strip():
        lines.pop()
    return joined, lines, value


def _read(path: str, asked: Asked) -> str:
    asked.file = "standard input" if path == STANDARD_INPUT else one_line(path)
    if not path:
        raise InputFault("the file's name is empty")
    if path != STANDARD_INPUT and os.path.isdir(path):
        raise InputFault(f"{asked.file} is a folder; give a file")
    text = read_text(path)
    if "\r\n" in text:
        asked.notes.append(f"{asked.file} has lines that end in CR and LF; they were read as LF alone")
        text = text.replace("\r\n", "\n")
    return text


def _cautions(value: Any) -> list[str]:
    """What is probably not meant of a net, or of a bundle's; nothing of one that is malformed, which the program
    tells."""
    try:
        return cautions(net_of(value.get("net", value)))
    except (FormatFault, AttributeError):
        return []


def _protocol(request: Request, text: str, asked: Asked) -> list[str]:
    """The line of a net or bundle; gives the lines behind it."""
    if request.member is None and text.lstrip()[:1] in ("{", "["):
        line, behind, value = cut_json(text)
        asked.original = text
        if request.command == PLAYS and isinstance(value, dict) and "net" in value and "leaves" not in value:
            asked.notes.append(f"{asked.file} is a bundle; the net in it is played")
            line, asked.original = compact(value["net"]), ""
        asked.notes += [f"{asked.file}: warning: {told}" for told in _cautions(value)]
        asked.add(line, asked.file)
        return behind
    try:
        loaded = load_chosen(text, asked.file, request.member)
    except NoMember as fault:
        raise WordFault(str(fault)) from None
    asked.notes += [f"{asked.file}: {'' if READ_AS in told else 'warning: '}{told}" for told in loaded.warnings]
    if request.command == PLAYS:
        asked.add(compact(loaded.net.value()), asked.file)
        return []
    bundle = strict_bundle(loaded)
    if loaded.assumed:
        asked.notes.append(f"{asked.file}: {ASSUMES}")
    asked.add(bundle.line(), asked.file)
    asked.bundle = bundle
    return []


def _predicate(request: Request, asked: Asked) -> list[str]:
    """The vars line and the predicate; gives the lines behind them."""
    target = request.target or ""
    is_file = (
        target == STANDARD_INPUT
        or os.path.isfile(target)
        or not any(c in target for c in RELATION_SIGNS)
        and "." in target
    )
    names: list[str] | None = None
    behind: list[str] = []
    text = target
    if is_file:
        read = _read(target, asked)
        if read.startswith("vars"):
            first, *lines = read.split("\n")
            names, text, behind = first.split(" ")[1:], (lines or [""])[0], [line for line in lines[1:] if line]
            form, _ = in_form(text, names)
            return _two_lines(first, text, form, asked, behind)
        text, names = _predicate_of(read, asked)
        if asked.is_strict:
            return _two_lines("vars " + " ".join(names or []), text, _on_one_line(text, asked), asked, behind)
    asked.has_guessed_names = names is None
    form, own = in_form(text, names, [count.partition("=")[0] for count in request.counts])
    if names is None and not own:
        raise InputFault(f"`{text}` has no variable; a predicate has one at least, as in `x < 3`")
    return _two_lines("vars " + " ".join(names or own), text, form, asked, behind)


def _on_one_line(text: str, asked: Asked) -> str:
    """A predicate of a JSON text, which may have any characters; InputFault where it isn't in one line of print."""
    odd = next((c for c in text if c != "\t" and not " " <= c <= "~"), None)
    if odd is not None:
        raise InputFault(
            f"fault: pred syntax {text.index(odd)}\n{asked.file}: /pred has {odd!r}, which no predicate has"
        )
    return text


def _two_lines(first: str, text: str, form: str, asked: Asked, behind: list[str]) -> list[str]:
    if form != text:
        asked.notes.append(f"the predicate was read as: {form}")
    asked.add(first, "the variables" if not asked.file else f"{asked.file}:1")
    asked.add(form, "the predicate" if not asked.file else f"{asked.file}:2")
    return behind


def _variables(value: Any, asked: Asked) -> list[str]:
    """The names of a JSON net's variables; InputFault where they are none."""
    names = value if isinstance(value, list) else []
    if not 1 <= len(names) <= VARIABLE_LIMIT or not all(
        isinstance(name, str) and is_variable_name(name) for name in names
    ):
        raise InputFault(
            f"fault: format /net/vars {'name' if names else 'kind'}\n{asked.file}: /net/vars has to be a list of 1 to"
            f" {VARIABLE_LIMIT} names of variables"
        )
    return names


def _predicate_of(text: str, asked: Asked) -> tuple[str, list[str] | None]:
    """The predicate of a net's file, with its variables; or the text itself, without them."""
    if text.lstrip()[:1] in ("{", "["):
        _, behind, value = cut_json(text)
        if isinstance(value, dict) and isinstance(value.get("pred"), str) and isinstance(value.get("net"), dict):
            # (a bundle's predicate is that of the grammar, as `check` reads it)
            asked.is_strict = True
            return value["pred"], _variables(value["net"].get("vars"), asked)
        raise InputFault(f"{asked.file} has no predicate: a bundle has one, a net has none")
    if len(text.strip().splitlines()) == 1 and any(c in text for c in RELATION_SIGNS):
        return text.strip(), None
    loaded = load(text, asked.file)
    if loaded.predicate is None:
        raise InputFault(f"{asked.file} has no predicate: add a line `computes PREDICATE`")
    return loaded.predicate, list(loaded.net.names)


def make_input(request: Request) -> Asked:
    """The program's words and input for a request; InputFault where a file cannot be used."""
    asked = Asked(request.words)
    if request.target is None:
        return asked
    if request.command == "replay":
        for number, line in enumerate(_read(request.target, asked).removesuffix("\n").split("\n"), start=1):
            asked.add(line, f"{asked.file}:{number}")
        return asked
    behind = (
        _predicate(request, asked)
        if request.command in TAKES_PREDICATE
        else _protocol(request, _read(request.target, asked), asked)
    )
    if behind and (request.counts or request.meetings):
        if not request.counts:
            raise WordFault(
                f"meetings are given, and {asked.file} has a crowd line of its own: give the counts too, as in x=2 y=1"
            )
        asked.notes.append(
            f"{asked.file} has {len(behind)} more {'lines' if len(behind) > 1 else 'line'}; the words are used instead"
        )
        behind = []
    for line in behind:
        asked.add(line, asked.file)
    if request.counts:
        asked.add("crowd " + " ".join(request.counts), "the counts")
    for meeting in request.meetings:
        asked.add(meeting, "the meetings")
    return asked
