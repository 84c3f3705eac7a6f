#!/usr/bin/python3
"""Seconds of `simulate` beside a plain simulator of agents in C (bench/plain/agents.c), of six protocols and 10^3 to
10^9 agents.

Run from anywhere: /usr/bin/python3 bench/crowds.py [--short] [--write]. With --write the table goes into
docs/develop/performance.md; --kept puts the one there that bench/results/crowds.txt has, and measures nothing.
Both are measured in one run, in seconds of a processor, of one run each. Where the plain one would make more than MOST
meetings, it makes so many, and its time for all is reckoned from these: `~` stands before it. If `simulate` took over
PATIENCE seconds, the protocol isn't tried with more agents.
"""

from __future__ import annotations

import json
import subprocess
import sys
import tempfile
from pathlib import Path

TOP = Path(__file__).resolve().parents[1]
sys.path.insert(0, str(TOP))

from common import IS_SHORT, WORDS, write_between  # noqa: E402
from hurleyoak.protocol.reactions import Reactions  # noqa: E402
from hurleyoak.text.files import load, load_path  # noqa: E402

MOST = 20_000_000  # meetings of the plain simulator in one run
PATIENCE = 30  # seconds of a processor
SIZES = [10**3, 10**4] if IS_SHORT else [10**k for k in range(3, 10)]
SEED = 1
KEPT = TOP / "bench/results/crowds.txt"
HEAD = ["| Protocol | Agents | Meetings | Changes | `simulate` | Plain agents in C |", "|---|---|---|---|---|---|"]
COIN = "inputs x: X  y: Y\nX + Y -> X + U\nX + Y -> U + Y\nX + U -> X + X\nY + U -> Y + Y\nyes X\n"
# name, source, and the share of the agents of the first variable (None: one agent)
PROTOCOLS = [
    ("approximate majority 60:40, a coin", COIN, 0.6),
    ("majority 40:60", "examples/majority/majority.pop", 0.4),
    ("epidemic from one", "examples/epidemic/epidemic.pop", None),
    ("flock, half of them x", "examples/flock/flock.pop", 0.5),
    ("threshold, half of them x", "examples/threshold/threshold.pop", 0.5),
    ("remainder, half of them x", "examples/remainder/remainder.pop", 0.5),
]
OURS = """
import json, sys, time
import numpy
sys.path.insert(0, sys.argv[1])
from hurleyoak.simulation.carrying import Limits, carry_out
from hurleyoak.simulation.simulation import Simulation
from hurleyoak.text.files import load, load_path
source, counts = json.loads(sys.argv[2])
net = (load(source, "a") if "\\n" in source else load_path(source)).net
start = time.process_time()
run = Simulation(net, counts, int(sys.argv[3]))
carry_out(run, Limits(), None)
print(json.dumps([run.meetings, run.changes, time.process_time() - start, run.is_terminal]))
"""


def table_of(source: str, counts: list[int]) -> str:
    """What the plain simulator reads."""
    net = (load(source, "a") if "\n" in source else load_path(source)).net
    reactions = Reactions(net)
    words, at = [*reactions.start(counts)], 0
    rows: dict[tuple[int, int], list[int]] = {}
    while at < len(words):
        for i, j in [(at, k) for k in range(at + 1)] + [(k, at) for k in range(at)]:
            flat = []
            for (a, b), _ in reactions.options(words[i], words[j]):
                for word in (a, b):
                    if word not in words:
                        words.append(word)
                    flat.append(words.index(word))
            rows[i, j] = flat
        at += 1
    start = reactions.start(counts)
    lines = [str(len(words))]
    for i in range(len(words)):
        for j in range(len(words)):
            lines.append(" ".join(map(str, [len(rows[i, j]) // 2, *rows[i, j]])))
    return "\n".join([*lines, " ".join(str(start.get(word, 0)) for word in words)]) + "\n"


def ours(source: str, counts: list[int]) -> tuple[int, int, float, bool]:
    """Meetings, changes and seconds of `simulate`, and whether it came to its end."""
    words = [sys.executable, "-c", OURS, str(TOP), json.dumps([source, counts]), str(SEED)]
    meetings, changes, seconds, done = json.loads(
        subprocess.run(words, capture_output=True, text=True, check=True).stdout
    )
    return meetings, changes, seconds, done


def plain(program: str, source: str, counts: list[int], meetings: int) -> tuple[float, bool]:
    """Seconds of the plain simulator for so many meetings or to its end, and whether they are reckoned."""
    run = subprocess.run(
        [program, str(MOST)], input=table_of(source, counts), capture_output=True, text=True, check=True
    )
    made, _, seconds = run.stdout.split()
    is_cut = int(made) >= MOST and meetings > MOST
    return float(seconds) * (meetings / int(made) if is_cut else 1.0), is_cut


def spelled(seconds: float) -> str:
    """Seconds with two digits that count."""
    return f"{seconds:,.0f}" if seconds >= 10 else f"{seconds:.2g}" if seconds >= 0.001 else "0.001"


def row(program: str, path: str, share: float | None, n: int) -> tuple[list[str], float]:
    """The figures of one protocol at one size, and the seconds of `simulate`."""
    source = path if "\n" in path else str(TOP / path)
    names = (load(source, "a") if "\n" in source else load_path(source)).net.names
    first = 1 if share is None else round(share * n)
    counts = [first, n - first] if len(names) > 1 else [n]
    meetings, changes, seconds, done = ours(source, counts)
    slow, is_cut = plain(program, source, counts, meetings)
    sizes = [
        f"{value:.{digits}e}".replace("e+0", "e").replace("e+", "e")
        for value, digits in ((n, 0), (meetings, 1), (changes, 1))
    ]
    return [*sizes, spelled(seconds) + ("" if done else ", stopped"), ("~" if is_cut else "") + spelled(slow)], seconds


def lines_of(program: str) -> list[str]:
    """The rows of the table, the small sizes first; each is kept as soon as it is there."""
    found: dict[tuple[str, int], list[str]] = {}
    lines: list[str] = []
    slow: set[str] = set()
    for n in SIZES:
        for name, path, share in PROTOCOLS:
            if name in slow:
                continue
            found[name, n], seconds = row(program, path, share, n)
            if seconds > PATIENCE:
                slow.add(name)
            print(" | ".join([name, *found[name, n]]), flush=True)
            lines = []
            for one, _, _ in PROTOCOLS:
                rows = [found[one, size] for size in SIZES if (one, size) in found]
                lines += [f"| {'' if at else one} | {' | '.join(cells)} |" for at, cells in enumerate(rows)]
            KEPT.write_text("\n".join([*HEAD, *lines]) + "\n")
    return lines


def main() -> None:
    """Builds the plain simulator, measures, and writes where that is asked for."""
    if "--kept" in WORDS:
        return write_between("develop/performance.md", "crowds", KEPT.read_text().splitlines())
    with tempfile.TemporaryDirectory() as folder:
        program = f"{folder}/agents"
        subprocess.run(["gcc", "-O3", "-march=native", "-o", program, str(TOP / "bench/plain/agents.c")], check=True)
        rows = lines_of(program)
    if "--write" in WORDS:
        write_between("develop/performance.md", "crowds", [*HEAD, *rows])


if __name__ == "__main__":
    main()
