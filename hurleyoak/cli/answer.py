"""Answers a command of the program with a file or a predicate as an argument; sentences go to standard error."""
from __future__ import annotations

import os
import sys

from ..faults import InputFault
from ..engine.places import BY_SCRIPT
from ..engine.program import NoProgram
from ..statuses import DIFFERS, REFUSED, REJECTED, UNDECIDED, USAGE, WRITE_FAULT
from ..saying import say
from ..text.files import STANDARD_INPUT
from ..streams import STANDARD_OUTPUT
from ..wholes import is_whole, whole_of
from ..writing import WriteFault, write_whole
from ..engine.inputs import Asked, make_input
from .checking import CHECK, checked, say_told
from .passing import Printed, ask, put
from ..engine.request import PROGRAM_WORDS, STEPS, TWICE, USAGE as FORMS, Request, WordFault, read_request

FAULT_LINES = 3
LONG = ("run", "watch", "settle")
KEPT = "POP_PRINTED"  # the environment's name for what `check` printed
SHORT_LINES = 40  # a journal of so many lines is shown whole


def others() -> list[str]:
    """The words that aren't the program's."""
    from .table import OWN

    return [*OWN, "help", "build"]


def explain_answer(asked: Asked, printed: Printed) -> None:
    """Says what there is to say of an answer whose status isn't 0."""
    from ..show.told.answers import told

    if printed.status == UNDECIDED and len(asked.lines) > 1:
        from ..show.ending import undecided_told

        lines = undecided_told(asked.lines[0], asked.lines[1], printed.data)
        if lines:
            say(lines)
            return
    say(told(asked, [printed.line(i) for i in range(FAULT_LINES)], printed.status, others()))


def refuse_words(arguments: list[str], sentence: str) -> int:
    """The program's own line on these words, where there is a program, and a sentence."""
    from ..show.told.answers import told

    line = ""
    try:
        printed = ask(arguments, b"", builds=False)
        line = printed.line()
    except NoProgram:
        pass
    said = [sentence] if sentence else told(Asked(arguments), [line or usage_line(arguments)], USAGE, others())
    say(said)
    return USAGE


def usage_line(arguments: list[str]) -> str:
    """What the program says of words whose first one it doesn't know."""
    return (
        "fault: usage 0 missing"
        if not arguments
        else "fault: usage 0 unknown"
        if arguments[0] not in PROGRAM_WORDS
        else "fault: usage 1 unknown"
    )


def write_output(path: str, data: bytes) -> int:
    """Writes a file whole or not at all."""
    try:
        write_whole(path, data)
    except WriteFault as fault:
        say([str(fault)])
        return fault.status
    return 0


def answer(arguments: list[str]) -> int:
    """Answers, and ends with the program's status."""
    try:
        request = read_request(arguments)
        if request.is_help:
            from .help.showing import show_page

            return show_page(request.command)
        if request.target is None and not request.has_unknown_option and {STEPS, TWICE} & {*request.options}:
            request.target = STANDARD_INPUT
        if request.target is None and not request.has_unknown_option and any("=" in word for word in arguments):
            # (`--seed=3` over standard input)
            sys.stdout.flush()
            os.execv(BY_SCRIPT, [str(BY_SCRIPT), *request.words])
        if request.target is None or request.has_unknown_option:
            return refuse_words(request.words, "")
        asked = make_input(request)
        say_notes(asked)
        return run_request(request, asked)
    except WordFault as fault:
        return refuse_words(arguments, str(fault))
    except InputFault as fault:
        say(str(fault).split("\n"))
        return fault.status


def say_notes(asked: Asked) -> None:
    """What was read otherwise than it stands."""
    for note in asked.notes:
        say([note])


def run_request(request: Request, asked: Asked) -> int:
    """Asks the program, and passes on what it prints."""
    told_of_claim: list[list[str]] = []
    is_long = request.command in LONG and request.output is None and os.isatty(STANDARD_OUTPUT)
    if request.command == "compile":
        from .compiling import NOTHING_FITS, compile_printed

        made = compile_printed(request, asked)
        if made is None:
            return NOTHING_FITS
        printed = made
        if request.output is None:
            put(printed.data)
    elif STEPS in request.options:
        printed = with_steps(asked)
        if request.output is None:
            put(printed.data)
    elif request.command == CHECK:
        printed, told_of_claim = checked(asked, request.output is None)
    else:
        printed = ask(
            asked.words, asked.text().encode("utf-8", "surrogateescape"), passes=request.output is None and not is_long
        )
    if printed.write_fault:
        say([f"writing failed: {printed.write_fault}; what was printed is cut off"])
        return WRITE_FAULT
    if is_long:
        put(summary(printed.data, request.command))
    if TWICE in request.options:
        from .twice import told_twice

        status = told_twice(asked.lines[0], printed)
        if status != printed.status:
            return status
    say_told(told_of_claim)
    if printed.status == 0:
        return 0 if request.output is None else write_output(request.output, printed.data)
    if request.output is not None and printed.status == UNDECIDED:
        status = write_output(request.output, printed.data)
        if status:
            return status
    elif request.output is not None:
        put(printed.data)
    explain_answer(asked, printed)
    if printed.status == USAGE and len(request.options) == 0:
        say([FORMS[request.command]])
    return printed.status


def with_steps(asked: Asked) -> Printed:
    """What `play` prints, below the crowds and moves that lead there, which are the workbench's own; they end as the
    program says."""
    from ..show.steps import steps_told

    printed = ask(asked.words, asked.text().encode("utf-8", "surrogateescape"), passes=False)
    if printed.status:
        return printed
    told = steps_told(asked.lines, printed.data.decode())
    if told is None:
        say(["the steps would lead to another crowd than the program's, so they aren't shown"])
        return printed
    return Printed("".join(f"{line}\n" for line in [*told, ""]).encode() + printed.data, printed.status)


def summary(data: bytes, command: str) -> bytes:
    """A run's journal for a terminal: how long it is, its end, and how to get the rest; a short one as it is."""
    lines = data.split(b"\n")
    if len(lines) <= SHORT_LINES or b"end" not in lines:
        return data
    end = len(lines) - 1 - lines[::-1].index(b"end")
    told = (
        f"({end:,} lines of a journal, {len(data):,} bytes: `pop {command} .. -o FILE` writes it, `| less` shows it;"
        " its end:)\n"
    )
    return told.encode() + b"\n".join(lines[end + 1 :])


def tell(arguments: list[str]) -> int:
    """Tells of a status with which the program's own words ended over standard input.

    Usage is told from the words. Where standard input is a file, it is read once more. What `check` printed stands in
    the environment; of other commands the program is asked once more.
    """
    if len(arguments) < 2 or not is_whole(arguments[0]):
        return refuse_words(["--tell", *arguments], "")
    status, words = whole_of(arguments[0]), arguments[1:]
    from ..show.told.answers import status_told, told

    if status == USAGE:
        say(told(Asked(words), [ask(words, b"", passes=False).line()], status, others()))
        return 0
    asked = Asked(words, is_stdin=True)
    text = input_again() if is_same_again(status, words) else None
    if text is not None:
        kept = os.environ.get(KEPT) if words[0] == "check" else None
        again = ask(words, text, passes=False) if kept is None else Printed(f"{kept}\n".encode(), status)
        if again.status == status:
            asked.lines = text.decode("utf-8", "replace").removesuffix("\n").split("\n") if text else []
            explain_answer(asked, again)
            return 0
    say(status_told(status))
    return 0


def is_same_again(status: int, words: list[str]) -> bool:
    """Whether the program answers the same when it is asked once more: a run on threads does not."""
    on_threads = words[0] == "watch" or "--workers" in words
    return status in (REFUSED, REJECTED, DIFFERS) or status == UNDECIDED and words[0] == "run" and not on_threads


def input_again() -> bytes | None:
    """Standard input from its start, where it is a file."""
    try:
        os.lseek(0, 0, os.SEEK_SET)
        return sys.stdin.buffer.read()
    except OSError:
        return None
