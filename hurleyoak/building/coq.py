"""Asks Coq, where it is installed: builds its library once, and runs `coqc` and `coqchk` over an exported file."""
from __future__ import annotations

import os
import shutil
import subprocess
import tempfile
from pathlib import Path
from typing import Callable

from ..engine.places import TOP
from ..statuses import DIFFERS, DONE, NOT_BUILT, NO_MEMORY

BUILD = TOP / "proofs" / "coq" / "build"
NAME = "Certificate"
CLOSED = "Closed under the global context"
NOT_EQUAL = "eq_refl"  # what Coq's message names where the checker computes false
INSTALL = "Coq isn't installed; on Debian `apt-get install coq` installs it"
# what Coq takes beside a file: measured at 0.45 GB for the library and its assumptions, 0.55 KB for each byte of a file
LIBRARY_BYTES, BYTES_FOR_EACH = 450_000_000, 550

Told = Callable[[Callable[[], str]], None]


class Refused(Exception):
    """Coq has not accepted the file: sentences, and the exit status."""

    def __init__(self, lines: list[str], status: int) -> None:
        super().__init__("\n".join(lines))
        self.lines, self.status = lines, status


def free_bytes() -> int | None:
    """How much memory the machine has left; None where it doesn't say."""
    try:
        with open("/proc/meminfo", encoding="ascii") as file:
            lines = dict(line.split(":", 1) for line in file)
        return int(lines["MemAvailable"].split()[0]) * 1024
    except (OSError, KeyError, ValueError):
        return None


def needed_bytes(size: int) -> int:
    """How much memory Coq takes for a file of this size, about."""
    return LIBRARY_BYTES + BYTES_FOR_EACH * size


def look_at_size(size: int) -> None:
    """Refuses a file that the machine's memory isn't enough for."""
    free, needed = free_bytes(), needed_bytes(size)
    if free is not None and needed > free:
        raise Refused(
            [
                f"the file has {size:,} bytes; Coq takes about {needed / 1e9:.1f} GB for it, and {free / 1e9:.1f} GB are"
                " free",
                "`bin/recheck --coq` asks the checker that Coq proves, without parsing a file",
            ],
            NO_MEMORY,
        )


def built_library(told: Told) -> Path:
    """The folder of the built library; it is built where it is missing."""
    if shutil.which("coqc") is None:
        raise Refused([INSTALL], NOT_BUILT)
    with subprocess.Popen([BUILD], stdout=subprocess.PIPE, stderr=subprocess.PIPE, text=True) as run:
        assert run.stdout is not None and run.stderr is not None
        said = ""
        for line in run.stderr:
            said = line.strip()
            told(lambda: said)
        folder = run.stdout.read().strip()
    if run.returncode:
        raise Refused([f"Coq's library can't be built: {said}"], NOT_BUILT)
    return Path(folder)


def _run(words: list[str], room: str, told: Told, doing: str) -> tuple[int, str, str]:
    """A program's status and what it printed; `doing` is shown while it works."""
    out, err = Path(room, "printed"), Path(room, "faults")
    with out.open("wb") as printed, err.open("wb") as faults:
        run = subprocess.Popen(words, cwd=room, stdin=subprocess.DEVNULL, stdout=printed, stderr=faults)
        try:
            while True:
                try:
                    run.wait(0.2)
                    break
                except subprocess.TimeoutExpired:
                    told(lambda: doing)
        finally:
            if run.poll() is None:
                run.kill()
                run.wait()
    return run.returncode, out.read_text(errors="replace"), err.read_text(errors="replace")


def accepted(text: str, told: Told, by_second_kernel: bool) -> list[str]:
    """What Coq says of a file that it accepts, as sentences; Refused where it doesn't."""
    data = text.encode("utf-8", "surrogateescape")
    look_at_size(len(data))
    library = built_library(told)
    with tempfile.TemporaryDirectory(prefix="pop-coq-") as room:
        Path(room, f"{NAME}.v").write_bytes(data)
        places = ["-Q", os.fspath(library), "Hurleyoak", "-Q", ".", "HurleyoakFile"]
        status, printed, faults = _run(["coqc", "-q", *places, f"{NAME}.v"], room, told, "Coq checks the file")
        if status or CLOSED not in printed:
            raise Refused(_why(status, faults), DIFFERS if "Error" in faults or not status else NO_MEMORY)
        lines = [f"Coq accepts it: {CLOSED[0].lower()}{CLOSED[1:]}"]
        if by_second_kernel:
            words = ["coqchk", "-silent", "-o", *places, f"HurleyoakFile.{NAME}"]
            status, printed, faults = _run(
                words, room, told, "coqchk checks it, and the library, anew: about a minute"
            )
            if status or "Axioms: <none>" not in " ".join((printed + faults).split()):
                raise Refused(["coqchk doesn't accept what coqc accepted:", *_ending(printed + faults)], DIFFERS)
            lines.append("coqchk accepts it and the library: no axioms")
    return lines


def _why(status: int, faults: str) -> list[str]:
    if NOT_EQUAL in faults:
        return ["COQ REFUSES THE BUNDLE, which the program accepts: its checker says that the proof isn't valid"]
    if "Error" in faults:
        return ["Coq refuses the file:", *_ending(faults)]
    return [f"Coq ended with status {status}, and accepted nothing: {' '.join(_ending(faults))}"]


def _ending(text: str) -> list[str]:
    return [f"  {line}" for line in text.strip().split("\n")[-3:]]
