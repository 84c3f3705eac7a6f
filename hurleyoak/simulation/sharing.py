"""Does jobs here, or shares them by GNU parallel among processors and hosts; what was lost is done again."""
from __future__ import annotations

import os
import shlex
import shutil
import subprocess
import sys
from contextlib import contextmanager
from pathlib import Path
from tempfile import NamedTemporaryFile
from typing import Any, Callable, Iterable, Iterator, Sequence, TextIO

from ..engine import program
from ..faults import InputFault
from ..wholes import is_whole
from .sweepjobs import Job, Result, load_net, read_result, result_of

ROUNDS = 4  # times that a job is tried, each with retries by GNU parallel on other hosts
RETRIES = 3
CHUNK = 20  # jobs at most that one start of Python does
SHARES = 8  # chunks at least for each place, so that none waits long for another
SSH = "ssh -o BatchMode=yes -o ConnectTimeout=10 -o ServerAliveInterval=5 -o ServerAliveCountMax=3"
HERE = ":"  # this machine, in a file of hosts
POP = program.TOP / "bin" / "pop"


def needs_parallel() -> str:
    """The path of GNU parallel, or an InputFault that says what to install."""
    found = shutil.which("parallel")
    if found is None:
        raise InputFault("pop sweep --jobs and --hosts need GNU parallel: apt-get install parallel")
    return found


class Gathered:
    """Results by job, each once."""

    def __init__(self, jobs: Sequence[Job]) -> None:
        self.wanted = {job.text() for job in jobs}
        self.found: dict[str, Result] = {}
        self.odd = 0
        self.journal: TextIO | None = None  # where each new result is kept at once

    def take(self, result: Result | None) -> bool:
        """Takes a result, if its job is wanted and not done yet; InputFault where two of one job differ."""
        if result is None or result.job not in self.wanted:
            return False
        known = self.found.setdefault(result.job, result)
        if known != result:
            raise InputFault(f"two results of one job differ: {known.line()} and {result.line()}")
        if known is result and self.journal is not None:
            self.journal.write(result.line() + "\n")
            self.journal.flush()
        return known is result

    def take_lines(self, lines: Iterable[str]) -> None:
        """Takes the results on lines; other lines are counted and passed over."""
        for line in lines:
            result = read_result(line)
            self.odd += result is None and bool(line.strip())
            self.take(result)

    def missing(self, jobs: Sequence[Job]) -> list[Job]:
        """The jobs without a result."""
        return [job for job in jobs if job.text() not in self.found]


def read_folder(path: str, gathered: Gathered) -> None:
    """Takes the results in a file, or in all files of a folder."""
    at = Path(path)
    try:
        at.stat()
        for file in sorted(at.iterdir()) if at.is_dir() else [at]:
            if file.is_file():
                gathered.take_lines(file.read_text(encoding="utf-8", errors="replace").split("\n"))
    except OSError as error:
        raise InputFault(f"{path}: {error.strerror}") from None


@contextmanager
def journal_of(path: str, gathered: Gathered) -> Iterator[None]:
    """Takes the results that a journal has, and keeps each new one in it: after a kill the same words go on from
    there."""
    try:
        with open(path, "a+", encoding="utf-8", errors="surrogateescape") as file:
            file.seek(0)
            text = file.read()
            gathered.take_lines(text.split("\n"))
            if text and not text.endswith("\n"):
                file.write("\n")  # (the last line was torn)
            gathered.journal = file
            yield
    except OSError as error:
        raise InputFault(f"{path}: {error.strerror}") from None
    finally:
        gathered.journal = None


def done_here(jobs: Iterable[Job], gathered: Gathered, told: Callable[[], None]) -> None:
    """Does the jobs one after the other in this process."""
    loaded = {}
    for job in jobs:
        key = (job.path, job.predicate, job.member)
        if key not in loaded:
            loaded[key] = load_net(*key)
        gathered.take(result_of(job, loaded[key]))
        told()


def _login(line: str, path: str) -> list[str]:
    """The words that reach a host of a line for GNU parallel: `host`, `4/host`, or a whole ssh command. InputFault
    where it is none: ssh would take a host that begins with `-` for an option."""
    login = line.partition("/")[2] if is_whole(line.partition("/")[0]) else line
    try:
        words = shlex.split(login)
    except ValueError:
        words = []
    if not words or words[0][:1] in ("", "-"):
        raise InputFault(
            f"{path}: `{line}` is no host: a line is `host`, `user@host`, `4/host` or a whole ssh command"
        )
    return words if len(words) > 1 else [*SSH.split(), login]


def living(path: str, known: set[str]) -> str:
    """The hosts of a file that answer, one on a line; those that don't are told once."""
    try:
        text = Path(path).read_text(encoding="utf-8", errors="surrogateescape")
    except OSError as error:
        raise InputFault(f"{path}: {error.strerror}; `--hosts` names a file with hosts") from None
    lines = [line.strip() for line in text.split("\n") if line.strip() and not line.strip().startswith("#")]
    logins = {line: _login(line, path) for line in lines if line != HERE}
    asked = {
        line: subprocess.Popen(
            [*login, "true"], stdin=subprocess.DEVNULL, stdout=subprocess.DEVNULL, stderr=subprocess.DEVNULL
        )
        for line, login in logins.items()
    }
    dead = {line for line, run in asked.items() if run.wait() != 0}
    for line in sorted(dead - known):
        print(f"pop: the host `{line}` doesn't answer; its jobs go to the others", file=sys.stderr)
    known |= dead
    if dead.issuperset(lines):
        raise InputFault(f"{path}: none of the {len(lines)} hosts answers")
    return "".join(f"{line}\n" for line in lines if line not in dead)


def command_of(jobs: int, hosts: str | None, chunk: int) -> list[str]:
    """The words of GNU parallel."""
    words = [needs_parallel(), "--will-cite", "--jobs", str(jobs), "--retries", str(RETRIES), "--max-args", str(chunk)]
    if hosts:
        words += ["--sshloginfile", hosts, "--ssh", SSH]
    named = os.environ.get(program.VARIABLE)
    environment = ["env", f"{program.VARIABLE}={named}"] if named else []
    # (GNU parallel joins these words for a shell; what it appends it quotes itself)
    return words + [shlex.quote(word) for word in (*environment, str(POP), "sweep", "--job")]


def _lines(words: Sequence[str], jobs: Sequence[Job]) -> Iterator[str]:
    """What GNU parallel prints, line by line."""
    as_given: dict[str, Any] = {"encoding": "utf-8", "errors": "surrogateescape"}
    with subprocess.Popen(words, stdin=subprocess.PIPE, stdout=subprocess.PIPE, **as_given) as run:
        assert run.stdin is not None and run.stdout is not None
        try:
            run.stdin.write("".join(job.text() + "\n" for job in jobs))
            run.stdin.close()
        except BrokenPipeError:
            pass
        yield from run.stdout


def shared(jobs: Sequence[Job], places: int, hosts: str | None, gathered: Gathered, told: Callable[[], None]) -> None:
    """Shares the jobs among places and hosts; those that failed or were lost are done again."""
    dead: set[str] = set()
    needs_parallel()
    for round_ in range(ROUNDS):
        missing = gathered.missing(jobs)
        if not missing:
            return
        if round_:
            print(f"pop: {len(missing)} jobs failed or were lost; they are done again", file=sys.stderr)
        chunk = max(1, min(CHUNK, len(missing) // (SHARES * places)))
        with NamedTemporaryFile("w", prefix="hosts", errors="surrogateescape") as file:
            if hosts:
                file.write(living(hosts, dead))
                file.flush()
            for line in _lines(command_of(places, file.name if hosts else None, chunk), missing):
                gathered.take(read_result(line))
                told()
