#!/usr/bin/python3
"""Reads a bundle of 100 MB with `read_proof`, beside serde_json's own parse of the same bytes.

bench/bundle_file.py [MEGABYTES]

Both programs stand below; they are proved and built in a folder of their own over copies of the crates they call. A
proof has at most 2,000,000 nodes for a leaf, so the nodes are long where the bundle is to be long.
"""
from __future__ import annotations

import os
import subprocess
import sys
import tempfile
import time

from common import source
from over_crates import Small, built_over

MAIN = source("kit/bundle_file.rt.in")

READS = source("kit/bundle_file_reads.rt.in")

PROGRAMS = {
    "plain": dict(what="", uses="", std="", more="", value="_", good="0"),
    "reader": dict(
        what=", and reads the proof of the bundle",
        uses="use cert_json::read_proof;\nuse net_json::read_net;\n",
        std="use std::alloc::Global;\n",
        more=READS,
        value="value",
        good="read(rt.alloc(), &value)",
    ),
}

NODE = '["lin",[[0,-1],[1,1],[7,1],[8,-1]%s]]'


def built(folder: str) -> dict[str, str]:
    uses = {"plain": ["pop_io", "serde_json"], "reader": ["pop_io", "net_json", "cert_json", "serde_json"]}
    return built_over(folder, {name: Small(uses[name], {"src/main.rt": MAIN % PROGRAMS[name]}) for name in PROGRAMS})


def measured(program: str, path: str) -> tuple[float, int, int]:
    """The least of three wall clock times in seconds, the greatest resident memory in bytes, and the exit status."""
    times, memory, status = [], 0, 0
    for _ in range(3):
        with open(path, "rb") as data:
            start = time.monotonic()
            child = subprocess.Popen([program], stdin=data, stdout=subprocess.DEVNULL)
            _, status, usage = os.wait4(child.pid, 0)
            times.append(time.monotonic() - start)
            memory = max(memory, usage.ru_maxrss * 1024)
    return min(times), memory, os.waitstatus_to_exitcode(status)


def main() -> None:
    size = int(sys.argv[1]) * 1_000_000 if len(sys.argv) > 1 else 100_000_000
    count = 1_000_000 if size > 80_000_000 else size // 80
    node = NODE % (",[9,1]" * max(0, (size // (2 * count) - len(NODE) + 1) // 6))
    nodes = ",".join([node] * count)
    line = '{"proof":[{"pred":"x < 1","layers":[],"true":[%s],"false":[%s]}]}\n' % (nodes, nodes)
    with tempfile.TemporaryDirectory() as folder:
        path = os.path.join(folder, "bundle")
        with open(path, "w") as file:
            file.write(line)
        seconds = {}
        for name, program in built(os.path.join(folder, "crate")).items():
            seconds[name], memory, status = measured(program, path)
            print(
                f"{name}: {seconds[name]:.2f} s, {len(line) / seconds[name] / 1e6:.0f} MB/s, "
                f"{memory / len(line):.1f} times the bytes in memory, exit status {status}"
            )
        print(
            f'{2 * count} nodes, {len(line)} bytes: {seconds["reader"] / seconds["plain"]:.2f} times the parse alone'
        )


if __name__ == "__main__":
    main()
