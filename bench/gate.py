#!/usr/bin/python3
"""Runs the merge gate from nothing in a clone, and prints the processor minutes of each crate's proofs, tests and
edits, and those of the seed of its edits: the check of the crate as it stands with which they begin.

Run from the top of the repository: bench/gate.py [--kept] [FOLDER [COMMIT]], or bench/gate.py --from LOG..

The clone is made in FOLDER, or in a new temporary folder. `rt ci --anew` proves and tries all, whatever earlier runs
kept; with --kept it is `rt ci`, which does only what no earlier run has done. With a COMMIT it is that one's gate, so
that an earlier gate and this one can be measured on one machine; nothing is written then. Without one what is printed
of a gate that passed goes into bench/results/gate.txt too, and the table of docs/develop/proving.md is made of it.
--from does both with what runs printed, the earliest first, ended ones among them: for each crate and kind of work
the last run counts that did it. A second table compares it with bench/results/gate_before.txt, the last gate before
the crates were cut anew. A process counts for the crate that its command line names. Times are read twice a
second, so the last half second of each process is missing; what a process took that names no crate stands in the last
line.

Virtual machines differ in speed, from one to the next and within minutes. So one crate of one commit is checked beside
the gate, at its start and every ten minutes, and the seconds of these checks are printed too: minutes of two gates
compare by them. They count for nothing else.
"""

from __future__ import annotations

import os
import shutil
import subprocess
import sys
import tempfile
import textwrap
import time
from collections import defaultdict
from collections.abc import Collection, Iterator
from pathlib import Path

from common import first_line, heading, write_between

TOP = Path(__file__).resolve().parent.parent
RESULT = TOP / "bench/results/gate.txt"
BEFORE = TOP / "bench/results/gate_before.txt"
TICKS = os.sysconf("SC_CLK_TCK")
ACROSS = 3
KINDS = ["proofs", "tests", "seeds", "edits", "other"]
LEAST = 0.05  # processor minutes of proofs, below which a gate took a crate's proof as it was kept

# The crate stands on no other one.
GAUGE_COMMIT, GAUGE_CRATE = "e11a5bb", "pop_lines"
GAUGE_PAUSE = 600


# the crate, the kind of work and the seconds of a process; the minutes of a crate by kind
Taken = tuple[str, str, float]
Minutes = dict[str, float]


class Gauge:
    """How fast the machine is: the seconds of one check from nothing, by one job, taken again and again."""

    def __init__(self, top: Path, folder: str) -> None:
        self.folder, self.next = folder, 0.0
        self.seconds: list[float] = []
        self.check: subprocess.Popen[bytes] | None = None
        subprocess.run(["git", "clone", "-q", str(top), folder], check=True)
        subprocess.run(["git", "checkout", "-q", GAUGE_COMMIT], cwd=folder, check=True)
        shutil.rmtree(f"{folder}/crates/{GAUGE_CRATE}/must-fail")

    def step(self) -> None:
        """Takes in a check that has ended, or begins one when it is time."""
        if self.check:
            ended, _, usage = os.wait4(self.check.pid, os.WNOHANG)
            if ended:
                self.seconds.append(usage.ru_utime + usage.ru_stime)
                self.check = None
        elif time.time() >= self.next:
            self.next = time.time() + GAUGE_PAUSE
            words, one = ["rt", "ci", "--anew", GAUGE_CRATE], {**os.environ, "RT_JOBS": "1"}
            quiet = subprocess.DEVNULL
            self.check = subprocess.Popen(words, cwd=self.folder, env=one, stdout=quiet, stderr=quiet)


def children() -> dict[int, list[int]]:
    """Maps each process to its children."""
    table: dict[int, list[int]] = defaultdict(list)
    for entry in Path("/proc").iterdir():
        if entry.name.isdigit():
            try:
                stat = (entry / "stat").read_text().rsplit(")", 1)[1].split()
            except OSError:
                continue
            table[int(stat[1])].append(int(entry.name))
    return table


def below(root: int) -> list[int]:
    """All processes that descend from this one, itself among them."""
    table, left = children(), [root]
    found: list[int] = []
    while left:
        process = left.pop()
        found.append(process)
        left.extend(table[process])
    return found


def is_seed(words: list[str]) -> bool:
    """Whether a check of an edit's kind writes into the seed, as the first and the last one of a crate do."""
    return "--incremental" in words and words[words.index("--incremental") + 1].endswith("/seed")


def place(process: int) -> tuple[str, str, str, float]:
    """The crate and the kind of work of a process, its start and its seconds so far."""
    folder = Path(f"/proc/{process}")
    words = (folder / "cmdline").read_bytes().decode(errors="replace").split("\0")
    stat = (folder / "stat").read_text().rsplit(")", 1)[1].split()
    crate = words[words.index("--crate-name") + 1] if "--crate-name" in words else ""
    if not crate:
        kind = "other"
    elif "rt-edit" in os.readlink(folder / "cwd"):
        kind = "seeds" if is_seed(words) else "edits"
    elif "--test" in words:
        kind = "tests"
    else:
        kind = "proofs"
    return crate, kind, stat[19], (int(stat[11]) + int(stat[12])) / TICKS


def watch(gate: subprocess.Popen[bytes], gauge: Gauge) -> Collection[Taken]:
    """The seconds of each process of the gate, by its number and start."""
    seconds: dict[tuple[int, str], Taken] = {}
    while gate.poll() is None:
        gauge.step()
        for process in below(gate.pid):
            try:
                crate, kind, start, taken = place(process)
            except (OSError, ValueError, IndexError):
                continue
            # (one that has just ended has no command line left)
            earlier = seconds.get((process, start), (crate, kind, 0.0))
            now = (crate, kind) if crate else earlier[:2]
            seconds[(process, start)] = (*now, taken)
        time.sleep(0.5)
    return seconds.values()


def report(seconds: Collection[Taken], folder: str) -> Iterator[str]:
    """The lines of all crates, with how many edits each has."""
    minutes: dict[str, Minutes] = defaultdict(lambda: dict.fromkeys(KINDS, 0.0))
    for crate, kind, taken in seconds:
        minutes[crate or "none"][kind] += taken / 60
    yield f"{'crate':20}" + "".join(f"{kind:>10}" for kind in [*KINDS, "tried"])
    for crate, row in sorted(minutes.items(), key=lambda item: -sum(item[1].values())):
        tried = len(list(Path(folder, "crates", crate, "must-fail").glob("*.edit")))
        yield f"{crate:20}" + "".join(f"{row[kind]:10.1f}" for kind in KINDS) + f"{tried:10}"


def order() -> list[str]:
    """The crates from the bottom up, as crates.txt lists them."""
    lines = (TOP / "crates.txt").read_text().splitlines()
    return [line.split(":")[0].strip() for line in lines if ":" in line and not line.startswith("#")]


def read_log(lines: list[str]) -> tuple[dict[str, Minutes], dict[str, str]]:
    """The minutes of each crate of a log by kind of work, with the number of its edits, and what stands around
    them."""
    rows: dict[str, Minutes] = {}
    told: dict[str, str] = {}
    for line in lines:
        words = line.split()
        if len(words) == len(KINDS) + 2 and words[1][0].isdigit():
            rows[words[0]] = dict(zip([*KINDS, "tried"], map(float, words[1:])))
        elif words:
            told[words[0]] = line.split(" ", 1)[-1]
    return rows, told


def cells(name: str, row: Minutes) -> list[str]:
    """A crate's part of the table; what was not done is left blank."""
    proofs, tests, seeds, edits = (f"{row[kind]:.1f}" if row[kind] >= 0.05 else "" for kind in KINDS[:4])
    return [f"`{name}`", proofs, tests, seeds, f"{edits} for {row['tried']:.0f}" if row["tried"] else edits]


def table(lines: list[str]) -> list[str]:
    """The table of docs/develop/proving.md, some crates a row, and a sentence with the sums."""
    rows, told = read_log(lines)
    known = order()
    names = sorted(
        (name for name in rows if name != "none"),
        key=lambda name: (known.index(name) if name in known else len(known), name),
    )
    height = -(-len(names) // ACROSS)
    out = ["| Crate | Proofs | Tests | Seed | Edits " * ACROSS + "|", "|---" * 5 * ACROSS + "|"]
    for at in range(height):
        found = [cells(name, rows[name]) for name in names[at::height]]
        out.append("| " + " | ".join(sum(found + [[""] * 5] * (ACROSS - len(found)), [])) + " |")
    sums = {kind: sum(row[kind] for row in rows.values()) for kind in [*KINDS, "tried"]}
    everything = sum(sums[kind] for kind in KINDS)
    parts = (
        f"proofs {sums['proofs']:.0f}, tests {sums['tests']:.0f}, seeds {sums['seeds']:.0f}, {sums['tried']:.0f} edits"
        f" {sums['edits']:.0f}"
    )
    sentence = (
        f"In all {everything:.0f} processor minutes ({parts}, no crate {sums['other']:.0f}),"
        f" {told.get('wall', '').removeprefix('clock ')}. The gate is that of {told.get('commit', 'unknown')}, on"
        f" {told.get('machine', 'unknown')}. Beside it a check of `{GAUGE_CRATE}`"
        f" {told.get(GAUGE_CRATE, 'was not timed')}."
    )
    return [*out, "", *textwrap.wrap(sentence, 120)]


def uses(commit: str) -> dict[str, list[str]]:
    """Which crates each crate of a commit names in crates.txt."""
    shown = ["git", "show", f"{commit}:crates.txt"]
    text = subprocess.run(shown, cwd=TOP, stdout=subprocess.PIPE, check=True, text=True)
    lines = [line for line in text.stdout.splitlines() if ":" in line and not line.startswith("#")]
    return {name.strip(): below.split() for name, below in (line.split(":", 1) for line in lines)}


def longest_chain(rows: dict[str, Minutes], below: dict[str, list[str]]) -> tuple[float, list[str]]:
    """The minutes of proofs of the crates that wait for one another longest, and these crates from the bottom up."""
    known: dict[str, tuple[float, list[str]]] = {}

    def up_to(name: str) -> tuple[float, list[str]]:
        if name not in known:
            chains = [up_to(other) for other in below.get(name, []) if other in rows]
            longest: tuple[float, list[str]] = max(chains, default=(0.0, []))
            known[name] = (longest[0] + rows[name]["proofs"], [*longest[1], name])
        return known[name]

    return up_to("pop_main")


def compared(lines: list[str], before: list[str]) -> list[str]:
    """A table with the sums of two gates, and a sentence with the longest chain of the first."""
    columns: list[list[str]] = []
    chains: list[tuple[float, list[str]]] = []
    speeds: list[float] = []
    for gate in (before, lines):
        rows, told = read_log(gate)
        commit = told["commit"]
        chains.append(longest_chain(rows, uses(commit)))
        sums = {kind: sum(row[kind] for row in rows.values()) for kind in [*KINDS, "tried"]}
        gauge = [float(word) for word in told.get(GAUGE_CRATE, "").split() if word.isdigit()]
        speeds.append(sum(gauge) / len(gauge) if gauge else 0.0)
        slower = speeds[-1] / speeds[0] if speeds[0] and speeds[-1] else 1.0
        columns.append(
            [
                f"{sum(name != 'none' for name in rows)}",
                *(f"{sums[kind]:.0f}" for kind in ("proofs", "tests", "seeds", "edits", "tried")),
                f"{sum(sums[kind] for kind in KINDS):.0f}",
                f"{chains[-1][0]:.1f}",
                f"{sum(sums[kind] for kind in KINDS) / slower:.0f}",
                f"{chains[-1][0] / slower:.1f}",
                f"{speeds[-1]:.0f} s" if gauge else "",
            ]
        )
    names = ["Crates", "Proofs", "Tests", "Seeds", "Edits", "Number of edits", "All", "Longest chain"]
    names += ["All, at the first one's speed", "Longest chain, at that speed"]
    names.append(f"`{GAUGE_CRATE}` of {GAUGE_COMMIT}")
    titles = [read_log(gate)[1]["commit"] for gate in (before, lines)]
    out = [f"| Processor minutes | {titles[0]} | {titles[1]} |", "|---|---|---|"]
    out += [f"| {name} | {one} | {other} |" for name, one, other in zip(names, *columns)]
    sentence = "The longest chain of the second gate is " + ", ".join(f"`{name}`" for name in chains[1][1]) + "."
    return [*out, "", *textwrap.wrap(sentence, 120)]


def joined(earlier: Minutes, later: Minutes) -> Minutes:
    """Two rows of a crate: of each kind of work the minutes of the later run, where it did any."""
    done = {kind: later[kind] if later[kind] > LEAST else earlier[kind] for kind in KINDS}
    return {**done, "tried": later["tried"]}


def merged(logs: list[list[str]]) -> list[str]:
    """One log of several, the earliest first. It has the crates, the commit and the time of the last one, and the
    gauge of all."""
    rows: dict[str, Minutes] = {}
    gauge: list[str] = []
    for lines in logs:
        found, told = read_log(lines)
        gauge += [word for word in told.get(GAUGE_CRATE, "").split() if word.isdigit()]
        rows.update({name: joined(rows.get(name, row), row) for name, row in found.items()})
    last = logs[-1]
    known = {*order(), "none"}
    out = [line for line in last if line.split() and line.split()[0] in ("commit", "toolchain", "machine", "date")]
    out.append(next(line for line in last if line.startswith("crate ")))
    for name, row in sorted(rows.items(), key=lambda item: -sum(item[1][kind] for kind in KINDS)):
        if name in known:
            out.append(f"{name:20}" + "".join(f"{row[kind]:10.1f}" for kind in KINDS) + f"{row['tried']:10.0f}")
    out.append(f"{GAUGE_CRATE} of {GAUGE_COMMIT} by one job: {' '.join(gauge)} seconds")
    return [*out, next(line for line in last if line.startswith("wall clock"))]


def keep(lines: list[str]) -> None:
    """Keeps a log as the raw figures, and writes the tables."""
    RESULT.parent.mkdir(exist_ok=True)
    RESULT.write_text("\n".join(lines) + "\n")
    before = BEFORE.read_text().splitlines()
    write_between("develop/proving.md", "gate", [*table(lines), "", *compared(lines, before)])


def measure(words: list[str]) -> tuple[list[str], int]:
    """Runs a gate; its lines and its status."""
    top = TOP
    kept = words[:1] == ["--kept"]
    words = words[1:] if kept else words
    folder = words[0] if words else tempfile.mkdtemp()
    subprocess.run(["git", "clone", "-q", str(top), folder], check=True)
    commit = words[1] if len(words) > 1 else first_line(["git", "rev-parse", "--short", "HEAD"])
    if len(words) > 1:
        subprocess.run(["git", "checkout", "-q", commit], cwd=folder, check=True)
    gauge = Gauge(top, f"{folder}-gauge")
    start = time.time()
    gate = subprocess.Popen(["rt", "ci"] if kept else ["rt", "ci", "--anew"], cwd=folder, stdout=sys.stderr)
    seconds = watch(gate, gauge)
    gauge_seconds = " ".join(f"{taken:.0f}" for taken in gauge.seconds)
    lines = [
        *heading(commit),
        *report(seconds, folder),
        f"{GAUGE_CRATE} of {GAUGE_COMMIT} by one job: {gauge_seconds} seconds",
        f"wall clock {(time.time() - start) / 60:.1f} minutes, status {gate.returncode}",
    ]
    return lines, gate.returncode


def main() -> int:
    if sys.argv[1:2] == ["--from"]:
        keep(merged([Path(name).read_text().splitlines() for name in sys.argv[2:]]))
        return 0
    lines, status = measure(sys.argv[1:])
    print("\n".join(lines))
    if len(sys.argv) < 3 and sys.argv[1:2] != ["--kept"] and status == 0:
        keep(lines)
    return status


if __name__ == "__main__":
    sys.exit(main())
