"""Runs the program over an input, and passes on what it prints as it comes."""
from __future__ import annotations

import os
import subprocess
import sys
from dataclasses import dataclass

from ..engine.places import BUILT, BY_SCRIPT, TOP
from ..engine.program import NoProgram, ended, program_path
from ..statuses import DONE
from ..streams import STANDARD_ERROR

PIECE = 1 << 16
WORKBENCH = ("/usr/bin/python3", "-E", "-s", str(TOP / "hurleyoak"))


@dataclass(frozen=True)
class Printed:
    """All that the program printed, its status, and why it could not be passed on where that was so."""

    data: bytes
    status: int
    write_fault: str = ""

    def line(self, number: int = 0) -> str:
        """One of the first lines."""
        lines = self.data[:PIECE].split(b"\n")
        return lines[number].decode(errors="replace") if number < len(lines) else ""


def _memory_file(data: bytes) -> int:
    file = os.memfd_create("input")
    view = memoryview(data)
    while view:
        view = view[os.write(file, view) :]
    os.lseek(file, 0, os.SEEK_SET)
    return file


def put(data: bytes) -> None:
    """Writes all of it to standard output; OSError where that fails."""
    view = memoryview(data)
    while view:
        view = view[os.write(1, view) :]


def ready_program(builds: bool) -> str:
    """The program, which is built first where it is missing and `builds` is given; NoProgram where there is none."""
    path = program_path()
    if path != str(BY_SCRIPT):
        return path
    from ..building.build import build

    if not builds or build() != DONE:
        raise NoProgram("the program isn't built; `pop build` proves and builds it")
    return str(BUILT)


def answer_unproved(words: list[str], data: bytes) -> None:
    """Says at once what the unproved program says, marked as such: the first build takes long."""
    file = _memory_file(data)
    sys.stdout.flush()
    try:
        subprocess.run([*WORKBENCH, "--unproved", *words], stdin=file, check=False)
    except OSError:
        pass
    finally:
        os.close(file)


def ask(
    words: list[str], data: bytes, passes: bool = True, builds: bool = True, meanwhile: list[str] | None = None
) -> Printed:
    """Asks the program; NoProgram where there is none, EndedBySignal where a signal ended it. At a terminal the unproved
    program is asked `meanwhile` before the first build."""
    if builds and meanwhile and os.isatty(STANDARD_ERROR) and program_path() == str(BY_SCRIPT):
        answer_unproved(meanwhile, data)
    path = ready_program(builds)
    file = _memory_file(data)
    sys.stdout.flush()
    try:
        run = subprocess.Popen(
            [os.fsencode(path), *(os.fsencode(w) for w in words)], stdin=file, stdout=subprocess.PIPE
        )
    except OSError as error:
        raise NoProgram(f"the program cannot be started: {error.strerror}") from None
    finally:
        os.close(file)
    assert run.stdout is not None
    pieces: list[bytes] = []
    fault = ""
    with run.stdout:
        while piece := os.read(run.stdout.fileno(), PIECE):
            pieces.append(piece)
            try:
                if passes:
                    put(piece)
            except OSError as error:
                fault = error.strerror or "it failed"
                break
    status = run.wait()
    return Printed(b"".join(pieces), status if fault else ended(status), fault)
