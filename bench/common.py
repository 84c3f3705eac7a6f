"""What the benches share: the program, whether only a short try is wanted, and the rows that bench/all.py makes its
table of.

The program is the one that POP_MAIN names, else the built one. With --short a bench does a small part of its work, so
that one sees that it runs; its figures mean nothing.
"""

from __future__ import annotations

import os
import resource
import subprocess
import sys
from typing import IO, Any, TypeVar

TOP = os.path.dirname(os.path.dirname(os.path.abspath(__file__)))
PROGRAM = os.environ.get("POP_MAIN") or os.path.join(TOP, "crates/pop_main/out/pop_main")
IS_SHORT = "--short" in sys.argv[1:]
Amount = TypeVar("Amount")
# a text, the seconds of all processors, the peak of memory in bytes, the page faults
Figures = tuple[bytes, float, int, int]
WORDS = [word for word in sys.argv[1:] if word != "--short"]


def few(many: Amount, short: Amount) -> Amount:
    """A number of runs, sizes or the like, or that of a short try."""
    return short if IS_SHORT else many


def row(command: str, work: str, seconds: float, plain: float | None = None, memory: str = "") -> None:
    """A row of the table: seconds of a processor of the built program and of the plain one, and what the memory
    was."""
    print(
        "\t".join(["row", command, work, f"{seconds:.3f}", "" if plain is None else f"{plain:.3f}", memory]),
        flush=True,
    )


# The peak of a process's memory counts that of the process that started it, so a small one starts what is measured.
STARTER = """
import os, sys
child = os.posix_spawn(sys.argv[2], sys.argv[2:], os.environ)
_, _, usage = os.wait4(child, 0)
os.write(int(sys.argv[1]), f"{usage.ru_utime + usage.ru_stime} {usage.ru_maxrss} {usage.ru_minflt}".encode())
"""


def run_apart(command: list[str], source: IO[Any] | int, sink: IO[Any] | int, data: bytes | None = None) -> Figures:
    """Runs a command; what it wrote where the sink is a pipe, the seconds of all processors, the peak of memory, the
    page faults."""
    usage, to = os.pipe()
    starter = [sys.executable, "-S", "-E", "-c", STARTER, str(to)]
    child = subprocess.Popen(starter + command, stdin=source, stdout=sink, pass_fds=[to])
    os.close(to)
    if data is not None and child.stdin:
        try:
            child.stdin.write(data)
            child.stdin.close()
        except BrokenPipeError:
            pass
    text = child.stdout.read() if child.stdout else b""
    child.wait()
    with os.fdopen(usage) as told:
        seconds, memory, faults = told.read().split()
    return text, float(seconds), int(memory) * 1024, int(faults)


def measured(command: list[str], data: bytes) -> Figures:
    """The same of a command over some bytes."""
    return run_apart(command, subprocess.PIPE, subprocess.PIPE, data)


def least(command: list[str], data: bytes, runs: int) -> Figures:
    """The text of the first of some runs, the least of their seconds, and the memory and page faults of the first."""
    all_runs = [measured(command, data) for _ in range(runs)]
    return all_runs[0][0], min(seconds for _, seconds, _, _ in all_runs), all_runs[0][2], all_runs[0][3]


def expect_program() -> None:
    """Ends a bench without a program, and keeps the built ones from leaving core files."""
    if not os.access(PROGRAM, os.X_OK):
        sys.exit("build the program first: bin/pop build")
    resource.setrlimit(resource.RLIMIT_CORE, (0, 0))


def first_line(words: list[str]) -> str:
    """The first line that a command prints, or nothing where it isn't there."""
    try:
        done = subprocess.run(words, cwd=TOP, stdin=subprocess.DEVNULL, capture_output=True, text=True)
    except OSError:
        return ""
    return done.stdout.split("\n")[0] if done.returncode == 0 else ""


def source(name: str) -> str:
    """The text of a program in bench/: a plain one (plain/*.rs), or one over the crates (kit/*.in, for crates that a
    bench makes)."""
    with open(os.path.join(TOP, "bench", name)) as file:
        return file.read()


def machine() -> str:
    """The processors of this machine."""
    with open("/proc/cpuinfo") as file:
        model = next((line.split(":", 1)[1].strip() for line in file if line.startswith("model name")), "unknown")
    return f"{os.cpu_count()} processors, {model}"


def heading(commit: str | None = None) -> list[str]:
    """What a file of figures begins with: commit, toolchain, machine and date. Figures that were written are no
    change."""
    changed = first_line(
        [
            "git",
            "status",
            "--porcelain",
            "--untracked-files=no",
            ".",
            ":!bench/results",
            ":!docs/develop/performance.md",
        ]
    )
    commit = commit or first_line(["git", "rev-parse", "--short", "HEAD"]) + (" with changes" if changed else "")
    return [
        f"commit {commit}",
        f"toolchain {first_line(['rt', 'version'])}",
        f"machine {machine()}",
        f"date {first_line(['date', '-u', '+%Y-%m-%d %H:%M'])}",
    ]


def write_between(document: str, name: str, lines: list[str]) -> None:
    """Puts lines between the two comments of this name in a document of docs/."""
    path = os.path.join(TOP, "docs", document)
    with open(path) as file:
        before, rest = file.read().split(f"<!-- {name}: ", 1)
    comment, rest = rest.split("\n", 1)
    _, after = rest.split(f"<!-- end of {name} -->", 1)
    with open(path, "w") as file:
        file.write(f"{before}<!-- {name}: {comment}\n\n" + "\n".join(lines) + f"\n\n<!-- end of {name} -->{after}")
