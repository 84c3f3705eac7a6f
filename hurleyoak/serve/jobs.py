"""Jobs: each a process of its own, with all that it starts; it ends when nobody listens any more.

One process stands ready, with the modules loaded, so that a job begins at once.
"""
from __future__ import annotations

import asyncio
import json
import os
import signal
import sys
from contextlib import aclosing, suppress
from typing import Any, AsyncGenerator, AsyncIterator, Iterator

from ..engine.places import TOP
from .limits import BUSY, GRACE, JOBS_LIMIT, LINE_LIMIT, LOOK, MEMORY_LIMIT, MOST_SECONDS, SECONDS, TOTAL_LIMIT


class TooMany(Exception):
    """So many jobs are under way that no other begins."""


def trouble(told: str) -> bytes:
    """A message of the server's own about a job."""
    return json.dumps({"event": "fault", "told": [told]}).encode()


def seconds_of(request: dict[str, Any]) -> float:
    """How long a job may take in all: what was asked for, within limits, and some grace."""
    asked = request.get("seconds")
    usual = SECONDS.get(str(request.get("kind")), 0.0)
    if isinstance(asked, (int, float)) and not isinstance(asked, bool) and 0 <= asked <= MOST_SECONDS:
        return float(asked) + GRACE
    return usual + GRACE


def _fields_of(group: int) -> Iterator[list[bytes]]:
    """What the system tells of each process of a group, from its state on."""
    for name in filter(str.isdigit, os.listdir("/proc")):
        with suppress(OSError, ValueError, IndexError):
            with open(f"/proc/{name}/stat", "rb") as file:
                # (the command's name, in parentheses, may have blanks)
                fields = file.read().rpartition(b")")[2].split()
            if int(fields[2]) == group:
                yield fields


def memory_of(group: int) -> int:
    """The bytes of memory that the processes of a group hold."""
    return sum(int(fields[21]) for fields in _fields_of(group)) * os.sysconf("SC_PAGE_SIZE")


def work_of(group: int) -> float:
    """The seconds of processors that the processes of a group have taken, those that ended among them."""
    return sum(sum(map(int, fields[11:15])) for fields in _fields_of(group)) / os.sysconf("SC_CLK_TCK")


class Clock:
    """The time that a job may take: it is up where its processes have worked so long, or much later on a machine that
    is busy otherwise."""

    def __init__(self, group: int, seconds: float) -> None:
        self.group, self.seconds = group, seconds
        self.now = asyncio.get_running_loop().time
        self.start = self.now()

    @property
    def left(self) -> float:
        """Seconds to the next look at it; 0 where the time is up."""
        taken = self.now() - self.start
        if taken < self.seconds:
            return self.seconds - taken
        return max(0.0, min(self.seconds - work_of(self.group), BUSY * self.seconds - taken))


class Worker:
    """One process that does one job."""

    def __init__(self, process: asyncio.subprocess.Process) -> None:
        self.process = process
        self.ended_for = ""

    @classmethod
    async def started(cls) -> "Worker":
        """A process that waits for its request. It has a session of its own, so that all it starts ends with it."""
        # (`-P`: the folder in which the server was started is no place for modules)
        process = await asyncio.create_subprocess_exec(
            sys.executable,
            "-P",
            "-m",
            "hurleyoak.serve.work",
            stdin=asyncio.subprocess.PIPE,
            stdout=asyncio.subprocess.PIPE,
            stderr=asyncio.subprocess.DEVNULL,
            env={**os.environ, "PYTHONPATH": str(TOP)},
            start_new_session=True,
            limit=LINE_LIMIT,
        )
        return cls(process)

    async def messages(self, request: dict[str, Any]) -> AsyncIterator[bytes]:
        """The messages of a job, each one line of JSON; the last one tells of its end."""
        stdin, stdout = self.process.stdin, self.process.stdout
        assert stdin is not None and stdout is not None
        clock = Clock(self.process.pid, seconds_of(request))
        size = 0
        try:
            # (it stays open: its end tells the job that nobody listens)
            stdin.write(json.dumps(request).encode() + b"\n")
            while True:
                line = await self._line(stdout, clock)
                size += len(line)
                if not line:
                    yield trouble(self.ended_for or "the job ended without an answer; it was ended from elsewhere")
                    return
                if size > TOTAL_LIMIT:
                    yield trouble(f"the job told over {TOTAL_LIMIT >> 20} MiB; it was ended")
                    return
                yield line.rstrip(b"\n")
                if line.startswith((b'{"event": "done"', b'{"event": "fault"')):
                    return
        except asyncio.TimeoutError:
            yield trouble(f"the time was up after {clock.seconds:.0f} seconds; the job was ended")
        except ValueError:
            yield trouble(f"a message of the job has over {LINE_LIMIT >> 20} MiB; it was ended")
        except (BrokenPipeError, ConnectionResetError):
            yield trouble("the job ended before it began")
        finally:
            self.end()

    async def _line(self, stdout: asyncio.StreamReader, clock: Clock) -> bytes:
        """The next message; TimeoutError where the time is up."""
        while True:
            left = clock.left
            try:
                return await asyncio.wait_for(stdout.readline(), left)
            except asyncio.TimeoutError:
                if not left:
                    raise

    def end(self) -> None:
        """Ends the process and all that it started."""
        with suppress(ProcessLookupError, PermissionError):
            os.killpg(self.process.pid, signal.SIGKILL)


class Jobs:
    """All jobs of the server, and the process that stands ready."""

    def __init__(self) -> None:
        self.running: set[Worker] = set()
        self.begun = 0  # jobs that run, or for which a process is started
        self.ready: asyncio.Task[Worker] | None = None
        self.looking: asyncio.Task[None] | None = None
        self.is_closed = False

    def prepare(self) -> None:
        """Lets a process stand ready."""
        if self.ready is None and not self.is_closed:
            self.ready = asyncio.create_task(Worker.started())

    async def _look(self) -> None:
        """Ends jobs that hold too much memory, as long as there are jobs."""
        while self.running:
            for worker in [*self.running]:
                if memory_of(worker.process.pid) > MEMORY_LIMIT:
                    worker.ended_for = f"the job held over {MEMORY_LIMIT >> 30} GiB of memory; it was ended"
                    worker.end()
            await asyncio.sleep(LOOK)

    async def _worker(self) -> Worker:
        task, self.ready = self.ready, None
        worker = await task if task else await Worker.started()
        if worker.process.returncode is not None:
            worker = await Worker.started()
        return worker

    @property
    def is_full(self) -> bool:
        """Whether no other job can begin now."""
        return self.begun >= JOBS_LIMIT or self.is_closed

    async def messages(self, request: dict[str, Any]) -> AsyncGenerator[bytes, None]:
        """The messages of a job; TooMany where it can't begin now."""
        if self.is_full:
            raise TooMany
        self.begun += 1
        try:
            async with aclosing(self._messages(request)) as messages:
                async for message in messages:
                    yield message
        finally:
            self.begun -= 1

    async def _messages(self, request: dict[str, Any]) -> AsyncGenerator[bytes, None]:
        worker = await self._worker()
        self.running.add(worker)
        if self.looking is None or self.looking.done():
            self.looking = asyncio.create_task(self._look())
        try:
            async for message in worker.messages(request):
                yield message
        finally:
            worker.end()
            self.running.discard(worker)
            # (so that the system forgets it)
            await worker.process.wait()
            self.prepare()

    async def close(self) -> None:
        """Ends all; no process is started any more."""
        self.is_closed = True
        for worker in [*self.running, *([await self.ready] if self.ready else [])]:
            worker.end()
            await worker.process.wait()
