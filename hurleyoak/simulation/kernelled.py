"""Runs by the kernel: the proved program draws, and this process asks it for what a run has come to."""
from __future__ import annotations

import os
import signal
import threading
import time
from contextlib import contextmanager
from types import FrameType
from typing import Callable, Iterator, Sequence

from ..engine.kernel import Kernel, State, go_line
from ..faults import AskFault
from ..protocol.nets import Net
from ..protocol.reactions import Reactions, Word
from .carrying import Limits
from .simulation import AGREED, CHANGES, INTERRUPTED, MEETINGS, SETTLED, TERMINAL, Simulation
from .tables import Table, table_of

CROWD_LIMIT = 1 << 22  # agents; a larger crowd goes faster by batches
ENDLESS_MEETINGS, ENDLESS_CHANGES = (1 << 127) - 1, (1 << 63) - 1  # of the kernel
FIRST_WORK = 1 << 16  # words and draws between two looks at the clock
LOOK_SECONDS = 0.1
LOOKS = 32  # times of a grid that are asked for at once
Agreed = tuple[bool, bool]  # where a run stops: where no agent outputs true, and where each does

_kernels: dict[int, Kernel] = {}  # of this process; one that was forked from it has its own


def kernel() -> Kernel:
    """The kernel of this process, which is started where it isn't there yet."""
    number = os.getpid()
    if number not in _kernels:
        _kernels.clear()
        _kernels[number] = Kernel()
    return _kernels[number]


class KernelRun(Simulation):
    """A simulation that the kernel carries out; the crowd that stands here is what it has last told."""

    told = "simulated by the kernel"

    def __init__(self, net: Net, counts: Sequence[int], seed: int, with_curve: bool = False) -> None:
        super().__init__(net, counts, seed)
        if self.agents > CROWD_LIMIT:
            raise AskFault(f"the kernel runs crowds of at most {CROWD_LIMIT:,} agents; without `--kernel` batches do")
        start = self.crowd()
        self.table: Table = table_of(net, list(start))
        for word in self.table.words:
            self.number(word)
        self.kernel = kernel()
        self.kernel.begin(self.table.begin(start))
        self.kernel.send(f"{'curve' if with_curve else 'run'} {seed}\n")
        self.is_interrupted, self.noted = False, 0  # the last meeting that a curve knows

    def take(self, state: State, on_change: Callable[[], None] | None = None) -> None:
        """Takes what the run has come to."""
        self._place(state.meetings, state.counts)
        self.changes, self.last_change, self.since = state.changes, state.last_change, state.since
        self.yes = sum(k for word, k in zip(self.words, self.counts) if self.reactions.output(word))
        self.sum_anew()
        if on_change and self.noted < state.last_change:
            self.meetings = self.noted = state.last_change
            on_change()
            self.meetings = state.meetings

    def _place(self, meetings: int, counts: Sequence[int]) -> None:
        self.meetings = meetings
        for word, k in zip(self.table.words, counts):
            self.counts[self.numbers[word]] = k

    def go(
        self, meetings: int, changes: int, agreed: Agreed, work: int, on_change: Callable[[], None] | None = None
    ) -> State:
        """Goes on, and takes what has come of it; the rows of a curve are noted."""
        most = min(meetings, ENDLESS_MEETINGS), min(changes, ENDLESS_CHANGES)
        self.kernel.send(go_line(*most, agreed, work))
        self.kernel.tell()
        rows, state = self.kernel.answer()
        for row in rows:
            if on_change and self.noted < row.meetings:
                self._place(row.meetings, row.counts)
                self.noted = row.meetings
                on_change()
        self.take(state, on_change)
        return state


@contextmanager
def interrupts(run: KernelRun) -> Iterator[None]:
    """The first interrupt ends the run with what it has; a second one ends the process."""
    if threading.current_thread() is not threading.main_thread():
        yield
        return
    before = signal.getsignal(signal.SIGINT)

    def noted(number: int, frame: FrameType | None) -> None:
        run.is_interrupted = True
        signal.signal(signal.SIGINT, before)

    signal.signal(signal.SIGINT, noted)
    try:
        yield
    finally:
        signal.signal(signal.SIGINT, before)


def carry_out(
    run: KernelRun,
    limits: Limits,
    value: bool | None,
    on_change: Callable[[], None] | None = None,
    each: Callable[[], None] | None = None,
) -> None:
    """Runs to the first limit, and says in `ended` which. Agreed means on the predicate's value, where it is known."""
    agreed: Agreed = (False, False)
    if limits.until == SETTLED or limits.until == AGREED:
        agreed = (value is not True or limits.until == SETTLED, value is not False or limits.until == SETTLED)
    most, work = limits.most_changes(run.agents), FIRST_WORK
    with interrupts(run):
        while not run.ended:
            began, changes = time.monotonic(), most
            if limits.until == SETTLED and run.output is not None:
                if run.is_settled:
                    run.ended = TERMINAL if run.is_terminal else SETTLED
                    break
                changes = min(most, run.changes + 1)
            state = run.go(limits.meetings, changes, agreed if changes == most else (False, False), work, on_change)
            _judge(run, state, limits, most, agreed)
            work *= 2 if time.monotonic() - began < LOOK_SECONDS else 1
            if each:
                each()


def _judge(run: KernelRun, state: State, limits: Limits, most: int, agreed: Agreed) -> None:
    """Says why a run has ended, where it has."""
    if state.is_terminal:
        run.ended = TERMINAL
    elif limits.until == AGREED and (run.yes == 0 and agreed[0] or run.yes == run.agents and agreed[1]):
        run.ended = AGREED
    elif run.meetings >= min(limits.meetings, ENDLESS_MEETINGS):
        run.ended = MEETINGS
    elif run.changes >= most:
        run.ended = CHANGES
    elif run.is_interrupted:
        run.ended = INTERRUPTED


class KernelPaths:
    """Many runs from one crowd, looked at from time to time; a run is a function of its seed and of the times."""

    def __init__(self, net: Net, start: dict[Word, int]) -> None:
        agents = sum(start.values())
        if agents > CROWD_LIMIT:
            raise AskFault(f"the kernel runs crowds of at most {CROWD_LIMIT:,} agents; without `--kernel` batches do")
        table, reactions = table_of(net, list(start)), Reactions(net)
        self.agents, self.text = agents, table.begin(start)
        self.names = [reactions.name(word) for word in table.words]
        self.yes = [reactions.output(word) for word in table.words]
        self.outputs = dict(zip(self.names, self.yes))

    def output(self, state: State) -> bool | None:
        """What all agents output; None where they don't agree."""
        yes = sum(k for k, is_yes in zip(state.counts, self.yes) if is_yes)
        return True if yes == self.agents else None if yes else False

    def run(self, seed: int, meetings: int, time: Callable[[int], int], times: int) -> list[State]:
        """What a run has come to at the times from 0 on, until nothing can change or there were so many meetings."""
        process, at, states = kernel(), 0, list[State]()
        process.begin(self.text)
        process.send(f"run {seed}\n")
        while True:
            goals = [min(meetings, time(number), ENDLESS_MEETINGS) for number in range(at, at + LOOKS)]
            process.send("".join(go_line(goal, ENDLESS_CHANGES, (False, False), ENDLESS_CHANGES) for goal in goals))
            process.tell()
            for state in [process.answer()[1] for _ in goals]:
                if not states or not (states[-1].is_terminal or states[-1].meetings >= meetings):
                    states.append(state)
            if states[-1].is_terminal or states[-1].meetings >= meetings:
                return states
            if len(states) > times:
                raise AskFault(f"a run has over {times:,} times of the grid: a greater `--every` gives fewer")
            at += LOOKS
