"""Tasks of `find` shared among the processors, each in a process of its own that ends with its time, and with the
process that asked."""
from __future__ import annotations

import multiprocessing
import os
import signal
import sys
import threading
import time
from multiprocessing.connection import Connection, wait
from typing import Any, Callable, Iterator, Sequence

from ..endings import end_with_parent
from . import howfar, limits
from .jobs import Result, Task, cut, work

STACK_BYTES = 512 << 20
DEEP = 200_000
MARGIN, MOST_MARGIN = 0.05, 1.0  # the part of its time, and the seconds, before which a task ends its own search


def deep(call: Callable[[], Any]) -> Any:
    """Runs a call with a stack for deep trees."""
    sys.setrecursionlimit(DEEP)
    threading.stack_size(STACK_BYTES)
    box: list[Any] = []
    faults: list[BaseException] = []

    def run() -> None:
        try:
            box.append(call())
        except BaseException as fault:  # noqa: B036  handed on to the caller
            faults.append(fault)

    thread = threading.Thread(target=run)
    thread.start()
    thread.join()
    if faults:
        raise faults[0]
    return box[0]


def processors() -> int:
    """How many processors this process may use."""
    return len(os.sched_getaffinity(0))


def results(tasks: Sequence[Task], jobs: int, end: float, going: howfar.Going | None = None) -> Iterator[Result]:
    """The results as they come; with one job, in the order of the tasks. Who stops listening ends the work that is
    left.

    So does the moment `end` of the monotonic clock: a task that isn't done then has a result that says so.

    `going` is told now and then how far each task is.
    """
    # (threads of a linear algebra library would only be in each other's way)
    os.environ.setdefault("OMP_NUM_THREADS", "1")
    shares = howfar.shared(len(tasks))
    waiting = list(range(len(tasks)))
    under_way: dict[Connection, _Process] = {}
    try:
        while waiting or under_way:
            while waiting and len(under_way) < max(jobs, 1) and time.monotonic() < end:
                one = _Process(waiting.pop(0), tasks, shares, end)
                under_way[one.pipe] = one
            left = end - time.monotonic()
            if left <= 0:
                break
            for pipe in wait(list(under_way), min(left, howfar.LOOK) if going else left):
                assert isinstance(pipe, Connection)
                yield under_way.pop(pipe).result()
            if going and under_way:
                going(list(shares))
        for number in sorted([*waiting, *(one.number for one in under_way.values())]):
            yield cut(tasks[number], "the time was up")
    finally:
        for one in under_way.values():
            one.end()


class _Process:
    """A process that does one task."""

    def __init__(self, number: int, tasks: Sequence[Task], shares: howfar.Shares, end: float) -> None:
        self.number, self.task = number, tasks[number]
        self.pipe, theirs = multiprocessing.Pipe(duplex=False)
        fork = multiprocessing.get_context("fork")
        self.process = fork.Process(
            target=_serve, args=(theirs, number, self.task, shares, end, os.getpid()), daemon=True
        )
        self.process.start()
        theirs.close()

    def result(self) -> Result:
        """What came of it, which is there or will never be."""
        try:
            made = self.pipe.recv()
        except EOFError:
            self.process.join()
            made = cut(self.task, f"its process was ended by signal {-(self.process.exitcode or 0)}")
        self.end()
        if isinstance(made, BaseException):
            raise made
        assert isinstance(made, Result)
        return made

    def end(self) -> None:
        """Ends it. (No lock is shared with it, so that its end leaves none closed.)"""
        self.process.kill()
        self.process.join()
        self.pipe.close()


def _serve(pipe: Connection, number: int, task: Task, shares: howfar.Shares, end: float, parent: int) -> None:
    """Does a task for another process, and has nothing to take back when it is asked to end."""
    signal.signal(signal.SIGTERM, signal.SIG_DFL)
    signal.signal(signal.SIGINT, signal.SIG_IGN)
    end_with_parent(parent)
    limits.end_at(end - min(MOST_MARGIN, MARGIN * task.seconds))
    howfar.serve(shares)
    howfar.begin(number)
    try:
        made: Any = deep(lambda: work(task))
    except BaseException as fault:  # noqa: B036  handed on to the process that asked
        made = fault
    pipe.send(made)
