"""`pop build`, `pop --version`, `pop --unproved`, and what an installation says of itself."""
from __future__ import annotations

import hashlib
import os
import subprocess
from pathlib import Path

from ..engine.places import BUILT, STANDING, TOP, VARIABLE
from ..engine.lock import holder, is_held
from ..engine.places import KEPT
from ..engine.sources import Origin, origin
from ..saying import say
from ..statuses import DONE, USAGE
from ..version import RELEASE
from .build import build
from .unproved import unproved

INSTALLED = TOP / "VERSION"
TOLD = {
    Origin.SAME: "the program is that of the sources",
    Origin.OLDER: "the program is older than the sources; `pop build` makes the new one",
    Origin.UNKNOWN: "it isn't known from which sources the program was built; `pop build` makes one of which it is",
}
OF = {
    Origin.SAME: "that of the sources",
    Origin.OLDER: "older than that of the sources",
    Origin.UNKNOWN: "of sources that aren't known",
}


def _first_line(words: list[str], instead: str) -> str:
    try:
        run = subprocess.run(
            words, cwd=TOP, stdin=subprocess.DEVNULL, stdout=subprocess.PIPE, stderr=subprocess.DEVNULL, check=False
        )
    except OSError:
        return instead
    line = run.stdout.decode(errors="replace").strip().split("\n")[0]
    return line if run.returncode == 0 and line else instead


def program_told() -> str:
    """Which program answers, and whether it is that of the sources."""
    named = os.environ.get(VARIABLE)
    if named:
        return f"the program is {named}, by {VARIABLE}; it isn't known from which sources it was built"
    if os.access(STANDING, os.X_OK) and is_held():
        return "the program that stood before answers while a build goes on"
    if not os.access(BUILT, os.X_OK):
        return "the program isn't built; `pop build` proves and builds it"
    return TOLD[origin()]


def _release() -> str:
    commit = _first_line(["git", "rev-parse", "--short", "HEAD"], "unknown")
    return f"hurleyoak {RELEASE}, commit {commit}, {_first_line(['rt', 'version'], 'no toolchain')}"


def installed(program: str) -> int:
    """Prints what an installation of this program says of itself."""
    path = Path(program).resolve()
    of = OF[origin() if path == BUILT.resolve() else Origin.UNKNOWN]
    print(_release())
    print(f"the program that was installed is {of}; its SHA-256 is {hashlib.sha256(path.read_bytes()).hexdigest()}")
    return DONE


def version() -> int:
    """Prints the version, the commit, the toolchain, and which program answers."""
    if INSTALLED.exists():
        print(INSTALLED.read_text(), end="")
        if os.environ.get(VARIABLE):
            print(program_told())
        return DONE
    print(_release())
    print(program_told())
    if KEPT.exists() and is_held():
        print(holder())
    return DONE


def run(word: str, rest: list[str]) -> int:
    """Answers one of these words."""
    if word == "--unproved":
        if not rest:
            say(["`--unproved` is followed by a command of the program, as in `pop --unproved check < bundle.json`"])
            return USAGE
        return unproved(rest)
    if word == "--installed" and len(rest) == 1:
        return installed(rest[0])
    if rest:
        say([f"`{word}` takes no further words"])
        return USAGE
    return version() if word == "--version" else build(is_asked=word == "build")
