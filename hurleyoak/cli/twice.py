"""`check --twice`: what the second checker says of a bundle, beside the program."""
from __future__ import annotations

import os
import subprocess

from ..engine.places import TOP
from ..saying import say
from ..statuses import DIFFERS, DONE, REJECTED
from .passing import Printed

SECOND = TOP / "bin" / "recheck"


def told_twice(bundle: str, printed: Printed) -> int:
    """The program's status where the second checker says the same of the bundle, or isn't asked; DIFFERS where it says
    another thing."""
    if printed.status not in (DONE, REJECTED):
        say(["the second checker wasn't asked: it is for bundles that the program reads"])
        return printed.status
    line = bundle.encode("utf-8", "surrogateescape")
    second = subprocess.run(
        [os.fspath(SECOND)], input=line, stdout=subprocess.PIPE, stderr=subprocess.STDOUT, check=False
    )
    said = second.stdout.decode(errors="replace").strip() or f"nothing, with status {second.returncode}"
    first = printed.data.decode(errors="replace").strip()
    if said == first:
        say(["bin/recheck, a second checker that shares no code with the program, says the same"])
        return printed.status
    say(
        [
            f"THE TWO CHECKERS DIFFER: the program says `{on_a_line(first)}`, and bin/recheck `{on_a_line(said)}`",
            "one of them is wrong; trust neither, and tell the authors, with the bundle",
        ]
    )
    return DIFFERS


def on_a_line(text: str) -> str:
    """Lines beside each other."""
    return " / ".join(text.splitlines())
