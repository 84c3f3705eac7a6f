"""Starts the workbench: `pop COMMAND ..`, `python3 hurleyoak COMMAND ..` or `python3 -m hurleyoak COMMAND ..`."""
from __future__ import annotations

import os
import signal
import sys
from typing import Any

if __package__ in (None, ""):
    # the folder itself is no place for imports: its modules would stand before others of the same names
    sys.path[0] = os.path.dirname(os.path.dirname(os.path.abspath(__file__)))

from hurleyoak.cli.commands import main  # noqa: E402
from hurleyoak.streams import STANDARD_OUTPUT, open_streams  # noqa: E402
from hurleyoak.visible import one_line  # noqa: E402

TERMINATED = 128 + signal.SIGTERM


def start() -> int:
    """Runs the command; what goes wrong beside its input is said in a line too."""
    open_streams()
    signal.signal(signal.SIGTERM, _terminated)
    try:
        status = main(sys.argv[1:])
        sys.stdout.flush()
        return status
    except OSError as error:
        os.dup2(os.open(os.devnull, os.O_WRONLY), STANDARD_OUTPUT)
        if error.filename is not None:
            return ended(7, f"{one_line(os.fsdecode(error.filename))}: {error.strerror}")
        return ended(7, f"writing failed: {error.strerror}; what was printed is cut off")
    except MemoryError:
        return ended(8, "out of memory")
    except RecursionError:
        return ended(2, "the input is nested too deeply")
    except KeyboardInterrupt:
        return 130
    except Terminated:
        return TERMINATED


class Terminated(BaseException):
    """The process was asked to end: what it began to write is taken back on the way out."""


def _terminated(_number: int, _frame: Any) -> None:
    raise Terminated


def ended(status: int, told: str) -> int:
    """Says why, and gives the status."""
    print(f"pop: {told}", file=sys.stderr)
    return status


def run() -> None:
    """The entry point of an installed `pop`."""
    sys.exit(start())


if __name__ == "__main__":
    run()
