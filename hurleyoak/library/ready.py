"""Whether the proved program is there: the library never builds it."""
from __future__ import annotations

from ..engine import program
from ..engine.places import BY_SCRIPT
from ..engine.program import NoProgram


class NotBuilt(NoProgram):
    """The proved program isn't there: `bin/pop build` proves and builds it, or POP_MAIN names one."""


def needs_program() -> None:
    """NotBuilt where the program would have to be built first."""
    try:
        found = program.program_path()
    except NoProgram as fault:
        raise NotBuilt(str(fault)) from None
    if found == str(BY_SCRIPT):
        raise NotBuilt("the proved program isn't built: `bin/pop build` proves and builds it, in about half an hour")
