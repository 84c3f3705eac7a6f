"""Help, the build, and what the exit statuses mean."""
from __future__ import annotations

from .shape import Command


OTHER = (
    Command(
        "help",
        "this page, or one on a command",
        ("pop help [COMMAND]", "pop help 'fault: line 2 extra'"),
        "Also says what a line of the program means.",
        ("pop help check", "pop help 'fault: size 1'"),
        files=False,
    ),
    Command(
        "build",
        "proves and builds the program where it is missing or older than its sources",
        ("pop build",),
        (
            "Until the new program is ready, the old one is used. The first build proves everything, in about "
            "half an hour on four processors."
        ),
        ("pop build", "pop build && pop --version"),
        files=False,
    ),
    Command(
        "--version",
        "the version, the commit, the toolchain, and whether the program is that of the sources",
        ("pop --version",),
        "",
        ("pop --version", "pop --version | head -n 1"),
        files=False,
    ),
    Command(
        "--unproved",
        "a command of the program before anything is proved",
        ("pop --unproved COMMAND ..",),
        "Builds the program without a proof, and keeps it until the sources change. Nothing is proved of its answers.",
        ("pop --unproved check < examples/majority/bundle.json", "pop --unproved demo 21"),
        files=False,
    ),
)

STATUSES = (
    "0 done",
    "1 the words mean no command",
    "2 the input is malformed",
    "3 the proof is not valid",
    "4 the turns are used up before the crowd's end",
    "5 journal or checkers differ",
    "6 reading failed",
    "7 writing failed",
    "8 out of memory",
    "9 the program isn't built",
)
