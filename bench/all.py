#!/usr/bin/python3
"""Runs the benches of the built program one after the other, and writes the tables of docs/develop/performance.md.

Run from the top of the repository: bench/all.py [--short] [--into FOLDER] [NAME ..], or bench/all.py --table Each
bench is a script of its own beside this one. What it prints goes into bench/results/NAME.txt, behind the commit, the
machine and its load; the tables are made of all these files, and --table only makes them. With --into the files go
into a folder of one's own, and the tables of that folder are printed; --short is for trying the scripts, and wants
--into. A bench that builds a program of its own over the proved crates takes some minutes for that, and has no short
mode.
"""

from __future__ import annotations

import os
import subprocess
import sys
import textwrap
from collections.abc import Iterator

from common import IS_SHORT, PROGRAM, TOP, WORDS, heading, write_between

HERE = os.path.dirname(os.path.abspath(__file__))
OF_THE_PROGRAM = [
    "check",
    "play",
    "net_file",
    "runs",
    "threads",
    "replay",
    "settle",
    "compile",
    "demo",
    "watch",
    "growth",
    "stack",
    "field",
]
OVER_CRATES = ["bundle_file", "layers", "tree", "pairs"]
BY_SAMPLES = ["parts", "profile"]
COMMANDS = ["check", "play", "run", "replay", "settle", "compile", "demo"]
# a line of figures in its cells, after the commit of its file
Row = tuple[str, list[str]]
RESULTS = os.path.join(TOP, "bench/results")


def run_bench(name: str, folder: str) -> bool:
    """Runs a bench, shows its lines and keeps them; whether it ended well."""
    load = " ".join(f"{number:.1f}" for number in os.getloadavg())
    lines = [*heading(), f"load {load}", ""]
    print(f"## {name} (load {load})", flush=True)
    words = [sys.executable, os.path.join(HERE, f"{name}.py"), *(["--short"] if IS_SHORT else [])]
    with subprocess.Popen(words, stdout=subprocess.PIPE, text=True) as bench:
        for line in bench.stdout or ():
            print(line, end="", flush=True)
            lines.append(line.rstrip("\n"))
    if bench.returncode == 0:
        with open(os.path.join(folder, f"{name}.txt"), "w") as file:
            file.write("\n".join(lines) + "\n")
    return bench.returncode == 0


def kept(folder: str) -> Iterator[Row]:
    """The lines with tabs of all files, cut up, each behind its file's commit."""
    for name in sorted(os.listdir(folder)):
        if not name.endswith(".txt"):
            continue
        with open(os.path.join(folder, name)) as file:
            lines = file.read().splitlines()
        commit = next((line.split(" ", 1)[1] for line in lines if line.startswith("commit ")), "unknown")
        for line in lines:
            if "\t" in line:
                yield commit, line.split("\t")


def main_table(rows: list[Row]) -> Iterator[str]:
    """Seconds, ratio and memory of each command's work."""
    yield "| Command | Work | Built | Plain | Ratio | Memory | Commit |"
    yield "|---|---|---|---|---|---|---|"
    before = ""
    for command in COMMANDS:
        for commit, (_, name, work, seconds, plain, memory) in rows:
            if name == command:
                ratio = f"{float(seconds) / float(plain):.1f}" if plain and float(plain) else ""
                yield (
                    f"| {f'`{name}`' if name != before else ''} | {work} | {seconds} | {plain} | {ratio} | {memory} |"
                    f" {commit} |"
                )
                before = name


def sentence(text: str) -> list[str]:
    return [*textwrap.wrap(text, 120), ""]


def growth(rows: list[Row]) -> list[str]:
    """Nanoseconds for a unit of work, at the least and at the greatest work."""
    steps: dict[tuple[str, str, str], list[tuple[int, str]]] = {}
    for commit, (_, name, unit, work, each) in rows:
        steps.setdefault((commit, name, unit), []).append((int(work), each))
    told = [
        f"`{name}` "
        + " and ".join(f"{int(each):,} at {work:,}" for work, each in sorted(found))
        + f" {unit} ({commit})"
        for (commit, name, unit), found in steps.items()
    ]
    return sentence(f"Growth, in nanoseconds for each: {'. '.join(told)}.")


def stack(rows: list[Row]) -> list[str]:
    """The least stack with which a command ends."""
    told = ". ".join(f"{name} {size}" for _, (_, name, size) in rows)
    return sentence(
        f"The least stack with which a command ends, in KB of `ulimit -s` ({rows[0][0]}): {told}. The usual limit is"
        " 8,192."
    )


def tables(folder: str) -> list[str]:
    """All tables, from the files of a folder."""
    lines = list(kept(folder))

    def rows(kind: str) -> list[Row]:
        return [(commit, cells) for commit, cells in lines if cells[0] == kind]

    out = [*main_table(rows("row")), ""]
    if rows("threads"):
        out += ["| Workers of `run` | Seconds of all processors | Page faults | Commit |", "|---|---|---|---|"]
        out += [
            f"| {workers} | {seconds} | {faults} | {commit} |"
            for commit, (_, workers, seconds, faults) in rows("threads")
        ] + [""]
    if rows("growth"):
        out += growth(rows("growth"))
    if rows("stack"):
        out += stack(rows("stack"))
    for commit, (_, workers, seeds, whole, watched) in rows("watched"):
        out += sentence(
            f"By {workers} workers on a certified epidemic of 1,000 agents `run` makes {int(whole):,} meetings, and"
            f" `watch` {int(watched):,} (the average of {seeds} seeds, {commit})."
        )
    return out[:-1]


def main() -> int:
    words, folder = WORDS, RESULTS
    if "--into" in words:
        at = words.index("--into")
        folder, words = words[at + 1], words[:at] + words[at + 2 :]
    elif IS_SHORT:
        sys.exit("--short wants --into FOLDER: its figures mean nothing")
    os.makedirs(folder, exist_ok=True)
    failed: list[str] = []
    if words != ["--table"]:
        print(f"of {PROGRAM}")
        usual = OF_THE_PROGRAM if IS_SHORT else [*OF_THE_PROGRAM, *OVER_CRATES, *BY_SAMPLES]
        failed = [name for name in words or usual if not run_bench(name, folder)]
    if folder == RESULTS:
        write_between("develop/performance.md", "performance", tables(folder))
    else:
        print("\n".join(tables(folder)))
    if failed:
        print("failed: " + " ".join(failed), file=sys.stderr)
    return 1 if failed else 0


if __name__ == "__main__":
    sys.exit(main())
