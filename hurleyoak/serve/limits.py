"""How much the page may ask for. Beyond a limit the answer is a sentence, and a job is ended."""
from __future__ import annotations

TEXT_LIMIT = 4 << 20  # bytes of a request, and of a file that is read or saved
LINE_LIMIT = 64 << 20  # bytes of one message of a job
TOTAL_LIMIT = 256 << 20  # bytes of all messages of a job
JOBS_LIMIT = 5  # jobs at the same time
CONNECTIONS = 100  # open connections; beyond, the one that has been idle for longest is closed
IDLE_SECONDS = 60.0  # a connection that asks nothing for so long is closed
BODY_SECONDS = 60.0  # in which a request's body comes
WRITTEN_LIMIT = 1 << 20  # bytes of a file that a job may write: caches of Python, semaphores
MEMORY_LIMIT = 6 << 30  # bytes of memory that a job and all that it started may hold
LOOK = 1.0  # seconds between two looks at that
BUSY = 4  # so many times as long a job may take where the machine has other work to do
GRACE = 30.0  # seconds that a job has beyond the time it was asked to take

# seconds that each kind of job may take, where the request doesn't say
SECONDS: dict[str, float] = {
    "read": 15,
    "text": 15,
    "check": 120,
    "find": 60,
    "mend": 120,
    "refute": 60,
    "play": 30,
    "simulate": 600,
    "growth": 600,
    "run": 60,
    "journal": 60,
    "settle": 60,
    "join": 60,
    "net": 30,
    "compile": 60,
}
MOST_SECONDS = 3600.0
AGENTS_TRIED = 40  # agents of `refute` at most
MEETINGS_PLAYED = 200_000  # meetings that the page has played by the program at most
