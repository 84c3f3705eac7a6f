#!/usr/bin/python3
"""Reads a net line of 100 MB with the built program, beside serde_json's own parse of the same bytes.

bench/net_file.py [MEGABYTES]

The program is crates/pop_main/out/pop_main (bin/pop builds it). The plain parse is a small Rattle program that this
script writes and builds in a folder of its own, over a copy of crates/pop_io.
"""
from __future__ import annotations

import os
import shutil
import subprocess
import tempfile
import time

from common import IS_SHORT, PROGRAM, TOP, WORDS, few, row, source

NET = (
    '{"format":1,"vars":["x","y"],"leaves":[{"states":["A","B","a","b"],"moves":[[0,1,2,3],[0,3,0,2],[1,2,1,3],'
    '[3,2,3,3]],"input":[0,1],"output":[true,false,true,false]}],"combine":[0],"more":[%s]}\n'
)

PLAIN = source("kit/net_file.rt.in")


def built_plain(folder: str) -> str:
    os.makedirs(os.path.join(folder, "crates", "plain", "src"))
    shutil.copytree(
        os.path.join(TOP, "crates", "pop_io"),
        os.path.join(folder, "crates", "pop_io"),
        ignore=shutil.ignore_patterns("out", "must-fail"),
    )
    with open(os.path.join(folder, "crates.txt"), "w") as file:
        file.write("pop_io:\nplain: pop_io serde_json\n")
    with open(os.path.join(folder, "crates", "plain", "src", "main.rt"), "w") as file:
        file.write(PLAIN)
    subprocess.run(["git", "init", "-q"], cwd=folder, check=True)
    subprocess.run(
        ["rt", "run"],
        cwd=os.path.join(folder, "crates", "plain"),
        stdin=subprocess.DEVNULL,
        stdout=subprocess.DEVNULL,
        stderr=subprocess.DEVNULL,
    )
    return os.path.join(folder, "crates", "plain", "out", "plain")


def measured(program: str, words: list[str], path: str) -> tuple[float, int]:
    """The least of three wall clock times in seconds, and the greatest resident memory in bytes."""
    times, memory = [], 0
    for _ in range(3):
        with open(path, "rb") as data:
            start = time.monotonic()
            child = subprocess.Popen([program] + words, stdin=data, stdout=subprocess.DEVNULL)
            _, _, usage = os.wait4(child.pid, 0)
            times.append(time.monotonic() - start)
            memory = max(memory, usage.ru_maxrss * 1024)
    return min(times), memory


def main() -> None:
    size = int(WORDS[0]) * 1_000_000 if WORDS else few(100_000_000, 1_000_000)
    with tempfile.TemporaryDirectory() as folder:
        line = NET % ",".join(["1234567"] * ((size - len(NET)) // 8))
        net, play = os.path.join(folder, "net"), os.path.join(folder, "play")
        with open(net, "w") as file:
            file.write(line)
        with open(play, "w") as file:
            file.write(line + "crowd x=2 y=1\n0 2\n")
        programs: list[tuple[str, str, list[str], str]] = [("play", PROGRAM, ["play"], play)]
        if not IS_SHORT:
            programs.insert(0, ("serde_json alone", built_plain(os.path.join(folder, "plain")), [], net))
        taken = {}
        for name, program, words, path in programs:
            seconds, memory = measured(program, words, path)
            print(
                f"{name}: {seconds:.2f} s, {len(line) / seconds / 1e6:.0f} MB/s, "
                f"{memory / len(line):.1f} times the bytes in memory"
            )
            taken[name] = seconds
        row(
            "play",
            f"a net line of {len(line) / 1e6:.0f} MB; plain: the parse of `serde_json` alone",
            taken["play"],
            taken.get("serde_json alone"),
            f"{memory / 1e6:.0f} MB",
        )


if __name__ == "__main__":
    main()
