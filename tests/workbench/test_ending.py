"""A search ends: with its time by the wall, at the first signal, and with the process that asked for it."""
from __future__ import annotations

import os
import signal
import subprocess
import time
from pathlib import Path
from typing import Callable

import pytest

from .conftest import EXAMPLES, TOP, needs_program

pytest.importorskip("scipy")

from hurleyoak.search import limits, processes  # noqa: E402
from hurleyoak.search.finding import drafts_of, tasks_of  # noqa: E402
from hurleyoak.search.jobs import FLAW, Result, Task, Why  # noqa: E402
from hurleyoak.text.files import load  # noqa: E402

MAJORITY = EXAMPLES / "majority/majority.pop"
FAMILY = """family m in 2..4
inputs x: A
A + A -> B + B
yes A
computes x < {m}
"""
# no task ever ends by itself, and the time that is given doesn't matter
ENDLESS = """
import sys, time
from hurleyoak.search import finding, processes
from hurleyoak.__main__ import start
processes.work = lambda task: time.sleep(600)
finding.larger_flaw = lambda *given: None
sys.argv[1:] = {words!r}
sys.exit(start())
"""
SOON = 60.0  # seconds, on a machine that is busy otherwise; without an end it is 600


def tasks(seconds: float = 60.0) -> list[Task]:
    """The tasks of majority."""
    loaded = load(MAJORITY.read_text(), "majority")
    return tasks_of(loaded, drafts_of(loaded, True), seconds, 0.0)


@pytest.mark.parametrize("jobs", [1, 2])
def test_tasks_end_with_their_time(monkeypatch: pytest.MonkeyPatch, jobs: int) -> None:
    """What isn't done then says so; small crowds that weren't tried stand in no proof's way."""

    def slow(task: Task) -> Result:
        time.sleep(0 if task.kind == FLAW else 600)
        return Result(task.kind, task.at, told="tried")

    monkeypatch.setattr(processes, "work", slow)
    start = time.monotonic()
    made = list(processes.results(tasks(), jobs, start + 3.0))
    assert time.monotonic() - start < SOON
    assert [(one.told, one.why) for one in made] == [
        ("tried", None),
        ("the time was up", Why.NO_LAYERS),
        ("the time was up", Why.GAVE_UP),
        ("the time was up", Why.GAVE_UP),
    ]


def test_a_task_whose_process_is_gone(monkeypatch: pytest.MonkeyPatch) -> None:
    """It is told, and the others go on."""

    def killed(task: Task) -> Result:
        if task.kind == FLAW:
            os.kill(os.getpid(), signal.SIGKILL)
        return Result(task.kind, task.at, told="done")

    monkeypatch.setattr(processes, "work", killed)
    made = list(processes.results(tasks(), 1, time.monotonic() + SOON))
    assert [one.told for one in made] == ["its process was ended by signal 9", "done", "done", "done"]


def test_a_fault_in_a_task_comes_out(monkeypatch: pytest.MonkeyPatch) -> None:
    """As if it had been done here."""

    def faulty(task: Task) -> Result:
        raise KeyError("here")

    monkeypatch.setattr(processes, "work", faulty)
    with pytest.raises(KeyError, match="here"):
        list(processes.results(tasks(), 2, time.monotonic() + SOON))


def test_the_clock_passes_all_deadlines_once_the_time_is_up() -> None:
    """Those that were set before, and those that are set behind."""
    with limits.ending(0.02):
        early = limits.clock() + 3_000
        assert limits.clock() < early
        time.sleep(0.05)
        late = limits.clock() + 10
        time.sleep(0.001)
        assert early < late < limits.clock()
        assert limits.worked(100.0, lambda seconds: seconds, lambda _: True) == limits.LEAST
    assert limits.clock() < early


def group_of(leader: int) -> list[int]:
    """The processes of a group that have not ended."""
    found = []
    for name in filter(str.isdigit, os.listdir("/proc")):
        try:
            fields = Path(f"/proc/{name}/stat").read_text().rpartition(")")[2].split()
        except OSError:
            continue
        if int(fields[2]) == leader and fields[0] != "Z":
            found.append(int(name))
    return found


def until(holds: Callable[[], bool]) -> bool:
    """Whether something holds soon."""
    end = time.monotonic() + SOON
    while not holds() and time.monotonic() < end:
        time.sleep(0.05)
    return holds()


@pytest.mark.parametrize(
    "number, status, whole",
    [
        (signal.SIGTERM, 143, False),
        (signal.SIGTERM, 143, True),
        (signal.SIGINT, 130, False),
        (signal.SIGINT, 130, True),
        (signal.SIGKILL, -9, False),
    ],
)
def test_find_ends_at_the_first_signal(tmp_path: Path, number: int, status: int, whole: bool) -> None:
    """To itself, or to its group; its workers end with it, also where it had no time to end them."""
    bare = tmp_path / "bare.pop"
    bare.write_text(MAJORITY.read_text().split("\nlayer")[0] + "\n")
    words = ["find", str(bare), "--jobs", "3", "--seconds", "600"]
    run = subprocess.Popen(
        ["/usr/bin/python3", "-c", ENDLESS.format(words=words)],
        cwd=TOP,
        stdin=subprocess.DEVNULL,
        stderr=subprocess.PIPE,
        text=True,
        start_new_session=True,
    )
    assert until(lambda: len(group_of(run.pid)) == 4)
    (os.killpg if whole else os.kill)(run.pid, number)
    assert run.wait(SOON) == status
    assert run.stderr is not None and run.stderr.read() == ""
    assert until(lambda: not group_of(run.pid))


@needs_program
def test_a_family_keeps_its_seconds(tmp_path: Path) -> None:
    """All its members together; each has its share of what is left."""
    family = tmp_path / "f.pop"
    family.write_text(FAMILY)
    start = time.monotonic()
    run = subprocess.run(
        ["/usr/bin/python3", "-c", ENDLESS.format(words=["find", str(family), "--seconds", "6"])],
        cwd=TOP,
        capture_output=True,
        text=True,
        check=False,
    )
    assert 5.5 <= time.monotonic() - start < SOON and run.returncode == 4
    lines = run.stdout.splitlines()[1:]
    assert [line.split()[-2:] for line in lines] == [["not", "found"]] * 3
    assert all(1.8 <= float(line.split()[3]) < 4 for line in lines)


@needs_program
def test_a_family_that_is_long_keeps_its_seconds(tmp_path: Path) -> None:
    """Members whose turn doesn't come are told so, and not even read."""
    family = tmp_path / "f.pop"
    family.write_text(FAMILY.replace("2..4", "2..900"))
    start = time.monotonic()
    run = subprocess.run(
        ["/usr/bin/python3", "-c", ENDLESS.format(words=["find", str(family), "--seconds", "3", "--jobs", "1"])],
        cwd=TOP,
        capture_output=True,
        text=True,
        check=False,
    )
    assert 2.8 <= time.monotonic() - start < SOON and run.returncode == 4, run.stderr
    lines = run.stdout.splitlines()[1:]
    assert len(lines) == 899 and lines[0].endswith("not found") and lines[-1].endswith("not tried: the time was up")
