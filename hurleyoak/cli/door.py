"""Who answers words that are no command of the workbench's own: help, the build, or the program with files."""
from __future__ import annotations

import sys

from ..engine.request import PROGRAM_WORDS

HELP_WORDS = ("help", "--help", "-h")


def enter(arguments: list[str]) -> int:
    """Answers, and gives the exit status."""
    word, rest = (arguments[0], arguments[1:]) if arguments else ("", [])
    if word in HELP_WORDS:
        from .help.showing import help_command

        return help_command(rest)
    if word in ("build", "--build", "--unproved", "--version", "--installed"):
        from ..building.commands import run

        return run(word, rest)
    from .answer import answer, refuse_words, tell

    if not arguments:
        from .help.showing import overview

        status = refuse_words([], "")
        sys.stdout.flush()
        print("\n" + overview(), end="", file=sys.stderr)
        return status
    if word == "--tell":
        return tell(rest)
    return answer(arguments) if word in PROGRAM_WORDS else refuse_words(arguments, "")
