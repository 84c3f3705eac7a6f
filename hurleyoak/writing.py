"""The one way to write a file: whole, or the old one is left as it was, also where the process is asked to end."""
from __future__ import annotations

import os
import stat
import sys
import tempfile

from .faults import InputFault
from .statuses import WRITE_FAULT
from .streams import STANDARD_OUTPUT
from .visible import one_line

NEW_MODE = 0o666
PREFIX = ".pop-"
ITS_OUTPUT = ("/dev/stdout", "/dev/fd/1", "/proc/self/fd/1")


class WriteFault(InputFault):
    """A file could not be written; nothing of it was."""

    status = WRITE_FAULT


def _mask() -> int:
    mask = os.umask(0)
    os.umask(mask)
    return mask


def write_whole(path: str, data: bytes) -> None:
    """Writes a file; a link is followed, mode and owner are kept, a read-only file refused. WriteFault where it
    fails."""
    try:
        target = os.path.realpath(path)
        if path in ITS_OUTPUT:
            # (a file there may be one that a shell appends to)
            sys.stdout.flush()
            with open(STANDARD_OUTPUT, "wb", closefd=False) as output:
                output.write(data)
        elif not os.path.exists(path):
            _replaced(target, data, NEW_MODE & ~_mask())
        elif not os.path.isfile(path):
            with open(path, "wb") as device:
                device.write(data)
        elif not os.access(target, os.W_OK) or not os.stat(target).st_mode & stat.S_IWUSR:
            raise WriteFault(f"{one_line(path)}: the file is read-only; nothing was written")
        else:
            _replaced(target, data, stat.S_IMODE(os.stat(target).st_mode), os.stat(target))
    except OSError as error:
        raise WriteFault(f"{one_line(path)}: {error.strerror}; nothing was written") from None
    except ValueError:
        raise WriteFault(f"{path!r} is no name of a file; nothing was written") from None


def _replaced(target: str, data: bytes, mode: int, before: os.stat_result | None = None) -> None:
    file, made = tempfile.mkstemp(prefix=PREFIX, dir=os.path.dirname(target))
    try:
        with os.fdopen(file, "wb") as out:
            out.write(data)
            out.flush()
            os.fsync(out.fileno())
        if before is not None:
            _give(made, before)
        os.chmod(made, mode)
        os.replace(made, target)
    except BaseException:
        os.unlink(made)
        raise


def _give(made: str, before: os.stat_result) -> None:
    """Gives the new file the owner and the group of the old one, as far as this user may."""
    for owner, group in ((before.st_uid, -1), (-1, before.st_gid)):
        try:
            os.chown(made, owner, group)
        except PermissionError:
            pass


def write_text(path: str, text: str) -> None:
    """Writes a text as UTF-8; what was no UTF-8 where it came from is written as it was."""
    write_whole(path, text.encode("utf-8", "surrogateescape"))
