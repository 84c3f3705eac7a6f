"""The workbench's own commands: one module each, with `run(given) -> int`; their words are those of `cli/table`."""
from __future__ import annotations

from contextlib import redirect_stdout
from importlib import import_module
from io import BytesIO, TextIOWrapper
from typing import Callable

from ...engine.program import EndedBySignal, NoProgram
from ...faults import AskFault, InputFault
from ..usage import UsageFault
from ...saying import say
from ...statuses import NOT_BUILT, USAGE
from ...text.given import READ_AS
from ...writing import write_whole
from ..table import OWN, Command
from ..table.reading import Given, read_words

OUTPUT = ("-o", "--output")
JOB_WORD = "--job"  # a job of a sweep, as another machine is asked for it


def main(arguments: list[str]) -> int:
    """Runs the command that the first word names, and gives its exit status; all other words are for the front
    door."""
    word = arguments[0] if arguments else ""
    try:
        if word not in OWN:
            from ..door import enter

            return enter(arguments)
        if "--help" in arguments[1:]:
            from ..help.showing import show_page

            return show_page(word)
        if arguments[:2] == ["sweep", JOB_WORD]:
            from .sweep import do_jobs

            return do_jobs(arguments[2:])
        return _run(OWN[word], arguments[1:])
    except AskFault as fault:
        say([f"{word}: {fault}"])
        return USAGE
    except InputFault as fault:
        say(str(fault).removeprefix("pop: ").removeprefix("pop ").split("\n"))
        return fault.status
    except NoProgram as fault:
        say([str(fault)])
        return NOT_BUILT
    except EndedBySignal as fault:
        say([str(fault)])
        return fault.status


def _run(command: Command, arguments: list[str]) -> int:
    """Runs a command of the table; what it prints goes to the file that `-o` names, whole, where it has no such option
    itself."""
    module = import_module(f".{command.module}", __name__)
    run: Callable[[Given], int] = module.run
    path, words = (None, arguments) if command.writes else output_of(arguments)
    given = read_words(command, words)
    if path is None:
        return run(given)
    made = BytesIO()
    with TextIOWrapper(
        made, "utf-8", errors="surrogateescape", newline="\n", write_through=True
    ) as stream, redirect_stdout(stream):
        status = run(given)
        stream.flush()
        data = made.getvalue()
    write_whole(path, data)
    return status


def output_of(arguments: list[str]) -> tuple[str | None, list[str]]:
    """The file behind `-o` or `--output`, and the other words."""
    path: str | None = None
    words: list[str] = []
    rest = iter(arguments)
    for word in rest:
        name, sign, value = word.partition("=")
        if word in OUTPUT:
            path = next(rest, "")
        elif sign and name == OUTPUT[1]:
            path = value
        else:
            words.append(word)
            continue
        if not path:
            raise UsageFault(f"`{word}` is followed by the file to write")
    return path, words


def warn(warnings: list[str], name: str) -> None:
    """Says warnings on standard error, and what was read otherwise than it stands."""
    for told in warnings:
        say([f"{name}: {'' if READ_AS in told else 'warning: '}{told}"])
