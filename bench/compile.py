#!/usr/bin/python3
"""Takes the processor time and memory of `compile` of the built program.

Run from the top of the repository: bench/compile.py [--short]
"""

from __future__ import annotations

from common import PROGRAM, expect_program, few, least, row


def main() -> None:
    expect_program()
    for count, width in few([(1, 80), (4, 80)], [(1, 20)]):
        predicate = " && ".join(f"x - y < {width - 1 - number}" for number in range(count))
        text, seconds, memory, _ = least([PROGRAM, "compile"], f"vars x y\n{predicate}\n".encode(), few(5, 1))
        wide = f"{count} atom of width {width}" if count == 1 else f"{count} atoms of widths {width} and less"
        row("compile", f"{wide}, {len(text) / 1e6:.1f} MB", seconds, memory=f"{memory / 1e6:.0f} MB")


main()
