#!/usr/bin/python3
"""Times the check of three ranking layers over 16,560 moves of one leaf of 256 states.

bench/layers.py

The program stands below; it is proved and built in a folder of its own over copies of the crates it calls.
"""
from __future__ import annotations

import subprocess
import tempfile
import time

from common import source
from over_crates import Small, built_over

MAIN = source("kit/layers.rt.in")

WEIGHTS = source("kit/layers_weights.antt.in")


def built(folder: str) -> str:
    files = {"src/main.rt": MAIN, "proofs/weights/Invariants.antt": WEIGHTS}
    uses = ["pop_io", "pop_net", "cert_base", "cert_layers"]
    return built_over(folder, {"layers": Small(uses, files)})["layers"]


def main() -> None:
    with tempfile.TemporaryDirectory() as folder:
        program = built(folder)
        times = []
        for _ in range(3):
            start = time.monotonic()
            subprocess.run([program], check=True)
            times.append(time.monotonic() - start)
        print(f"layers of 16,560 moves checked: {min(times):.3f} s")


if __name__ == "__main__":
    main()
