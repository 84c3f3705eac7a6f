"""The sources of the program, their checksum, and whether a built program is theirs."""
from __future__ import annotations

import hashlib
import os
from enum import Enum
from pathlib import Path
from typing import Iterator

from .places import BUILT, KERNEL, TOP

CRATES = TOP / "crates"
LIST = TOP / "crates.txt"
RECORD = BUILT.with_name("pop_main.built")
ENDINGS = (".rt", ".antt")
MAIN, KERNEL_CRATE = "pop_main", "pop_kernel"


def source_files() -> Iterator[Path]:
    """The files of the sources in order."""
    if LIST.exists():
        yield LIST
    for folder, folders, names in os.walk(CRATES):
        folders[:] = sorted(name for name in folders if name != "out")
        for name in sorted(names):
            if name.endswith(ENDINGS):
                yield Path(folder, name)


def needed(crate: str) -> set[str]:
    """A crate, and all that it stands on, by the list of crates."""
    stands_on = {
        name.strip(): rest.split()
        for name, sign, rest in (line.partition(":") for line in LIST.read_text().splitlines())
        if sign and name[:1] != "#"
    }
    out: set[str] = set()
    todo = [crate]
    while todo:
        one = todo.pop()
        if one in stands_on and one not in out:
            out.add(one)
            todo += stands_on[one]
    return out


def checksum() -> str:
    """One checksum of all sources and their names."""
    whole = hashlib.sha256()
    for path in source_files():
        whole.update(str(path.relative_to(TOP)).encode() + b"\0")
        whole.update(bytes.fromhex(_hash(path)))
    return whole.hexdigest()


def _hash(path: Path) -> str:
    return hashlib.sha256(path.read_bytes()).hexdigest()


def record(sources: str) -> None:
    """Notes beside the built program its checksum, and that of the sources from which it was built."""
    RECORD.write_text(f"program {_hash(BUILT)}\nsources {sources}\n")


class Origin(Enum):
    """What is known of the sources from which the built program was made."""

    SAME = "these sources"
    OLDER = "other sources"
    UNKNOWN = "the program isn't the one that its build noted"


def origin() -> Origin:
    """From which sources the built program was made, by the checksums that its build noted; times say nothing."""
    try:
        noted = dict(line.split(" ", 1) for line in RECORD.read_text(encoding="ascii").splitlines())
        if noted.get("program") != _hash(BUILT):
            return Origin.UNKNOWN
    except (OSError, ValueError):
        return Origin.UNKNOWN
    return Origin.SAME if noted.get("sources") == checksum() else Origin.OLDER


def is_of_sources() -> bool:
    """Whether the built program is there, and known to be that of the sources, and the kernel beside it."""
    return all(os.access(path, os.X_OK) for path in programs().values()) and origin() is Origin.SAME


def programs() -> dict[str, Path]:
    """The programs by their crates, and where they stand once they are built: the main one, and the kernel where the list
    of crates has it."""
    has_kernel = LIST.exists() and needed(KERNEL_CRATE)
    return {MAIN: BUILT, KERNEL_CRATE: KERNEL} if has_kernel else {MAIN: BUILT}
