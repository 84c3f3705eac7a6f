"""Who waits for a build that a command began: it ends with them."""
from __future__ import annotations

import os
import signal
from typing import Iterator


def _stat(pid: int) -> tuple[int, int, str] | None:
    """The parent, the session and a mark of a process that goes on; None where it has ended."""
    try:
        with open(f"/proc/{pid}/stat", "rb") as file:
            fields = file.read().rpartition(b")")[2].split()
    except OSError:
        return None
    return None if fields[0] == b"Z" else (int(fields[1]), int(fields[3]), fields[19].decode())


class Callers:
    """The processes of this session that started this one, and those that started them; none below `nohup`."""

    def __init__(self) -> None:
        is_left_alone = signal.getsignal(signal.SIGHUP) == signal.SIG_IGN
        self.marks = {} if is_left_alone else dict(self._found())

    @staticmethod
    def _found() -> Iterator[tuple[int, str]]:
        pid, session = os.getppid(), os.getsid(0)
        while pid > 1:
            found = _stat(pid)
            if found is None or found[1] != session:
                return
            yield pid, found[2]
            pid = found[0]

    def has_ended(self) -> bool:
        """Whether one of them has."""
        stats = {pid: _stat(pid) for pid in self.marks}
        return any(found is None or found[2] != self.marks[pid] for pid, found in stats.items())
