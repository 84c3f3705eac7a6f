"""`pop and A B`, `pop or A B`, `pop not A`: one bundle of two, or of the negation, with the proofs that they have."""
from __future__ import annotations

import sys

from ...engine import program
from ...faults import InputFault
from ...text.files import load_path
from ...text.loaded import strict_bundle
from ...proof.joining import Lost, joined, negated
from ...protocol.nets import FormatFault
from ...proof.bundles import Bundle, bundle_of
from ..usage import UsageFault
from ..table.reading import Given

START = "--start"


def _starts(given: Given) -> dict[str, str]:
    """Where variables start that one of the nets lacks."""
    starts: dict[str, str] = {}
    for text in given.texts(START):
        name, sign, state = text.partition("=")
        if not sign:
            raise UsageFault(f"`{START}` is followed by VARIABLE=STATE, found `{text}`")
        starts[name] = state
    return starts


def run(given: Given) -> int:
    """Prints the bundle where the program certifies it; its line goes to standard error."""
    word, words = given.command.word, given.words
    starts = {} if word == "not" else _starts(given)
    bundles = [strict_bundle(load_path(path)) for path in words]
    try:
        made = negated(bundles[0]) if word == "not" else joined(word, bundles[0], bundles[1], starts)
        bundle_of(made.value())
    except Lost as lost:
        raise InputFault(
            f"the proof of one of them names `{lost}`, which isn't there any more: `bin/pop find` looks for another"
            " proof"
        ) from None
    except FormatFault as fault:
        raise InputFault(
            f"fault: format {fault.path} {fault.why}\nthe joined net is over a limit of docs/reference/formats.md"
        ) from None
    return _certified(made)


def _certified(made: Bundle) -> int:
    answer = program.check(made.line())
    print(answer.first_line, file=sys.stderr)
    if answer.status == program.DONE:
        print(made.line())
    else:
        print("pop: the proofs don't carry over: `bin/pop find` looks for others", file=sys.stderr)
    return answer.status
