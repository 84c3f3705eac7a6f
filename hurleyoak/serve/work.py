"""One job, in a process of its own: a request on a line of standard input, messages on lines of standard output."""
from __future__ import annotations

import json
import os
import resource
import signal
import subprocess
import sys
import threading
from typing import Any, Callable

from ..faults import AskFault
from ..faults import InputFault
from ..engine.program import NoProgram
from ..text.scanner import TextFault
from . import measuring, proving, shaping, trying, watching
from .limits import WRITTEN_LIMIT
from .protocol import Fault, faults_of, read_task, text_task
from .request import Tell

PIECE = 1 << 16

TASKS: dict[str, Callable[[dict[str, Any], Tell], dict[str, Any]]] = {
    "read": read_task,
    "text": text_task,
    "check": proving.check_task,
    "find": proving.find_task,
    "mend": proving.mend_task,
    "refute": trying.refute_task,
    "play": trying.play_task,
    "simulate": measuring.simulate_task,
    "growth": measuring.growth_task,
    "run": measuring.run_task,
    "journal": watching.journal_task,
    "settle": watching.settle_task,
    "join": shaping.join_task,
    "net": shaping.net_task,
    "compile": shaping.compile_task,
}


def put(message: dict[str, Any]) -> None:
    """Tells a message; `event` stands first."""
    view = memoryview(json.dumps(message).encode() + b"\n")
    while view:
        view = view[os.write(1, view) :]


def tell(event: str, value: dict[str, Any]) -> None:
    """Tells how far the job is."""
    put({"event": event, **value})


def answer(request: dict[str, Any]) -> dict[str, Any]:
    """Does the job; its last message."""
    task = TASKS.get(str(request.get("kind")))
    if task is None:
        return {"event": "fault", "told": ["there is no such job"]}
    try:
        return {"event": "done", **task(request, tell)}
    except Fault as fault:
        return {"event": "fault", "told": fault.told, "faults": fault.marks}
    except (TextFault, InputFault) as fault:
        return {"event": "fault", "told": str(fault).split("\n"), "faults": faults_of(fault)}
    except (AskFault, NoProgram) as fault:
        return {"event": "fault", "told": str(fault).split("\n")}
    except subprocess.TimeoutExpired:
        return {"event": "fault", "told": ["the program did not answer in time"]}
    except RecursionError:
        return {"event": "fault", "told": ["the input is nested too deeply"]}
    except MemoryError:
        return {"event": "fault", "told": ["out of memory"]}
    except Exception as error:  # a mistake in the workbench is told, and costs this job alone
        return {
            "event": "fault",
            "told": [f"the workbench made a mistake of its own: {type(error).__name__}: {error}"],
        }


def read_line() -> bytes:
    """The request. No buffer is used, so that nothing is held when processes are made."""
    line = b""
    while not line.endswith(b"\n"):
        piece = os.read(0, PIECE)
        if not piece:
            sys.exit(0)
        line += piece
    return line


def end_with_listener() -> None:
    """Ends this process and all that it started once nobody listens: the server closes the other end, or is gone."""
    while os.read(0, PIECE):
        pass
    os.killpg(0, signal.SIGKILL)


def main() -> None:
    """Does one job."""
    signal.signal(signal.SIGINT, signal.SIG_IGN)
    resource.setrlimit(resource.RLIMIT_CORE, (0, 0))
    resource.setrlimit(resource.RLIMIT_FSIZE, (WRITTEN_LIMIT, WRITTEN_LIMIT))
    line = read_line()
    threading.Thread(target=end_with_listener, daemon=True).start()
    put(answer(json.loads(line)))
    os._exit(0)


if __name__ == "__main__":
    main()
