#!/usr/bin/python3
"""Runs demo cases, and takes the time of each.

Run from the top of the repository: bench/demo.py [--short] The cases 0 to 99 are run twice and must say the same both
times, with the status 0 or 4; then 200 cases spread over all 10,000. The first four lines of each summary are compared
with the definition of the case, written again here, and a verdict with the predicate's value.
"""

from __future__ import annotations

import subprocess
import time

from common import PROGRAM, expect_program, few, row

SPREAD = range(0, 10_000, few(50, 2_500))
TWICE = few(100, 2)
ENDINGS = {0: "verdict ", 4: "undecided "}


def case(number: int) -> tuple[str, bool, int]:
    """The predicate's text, its value, and the number of agents."""
    i = number // 4
    bound, modulus = i % 41 - 20, 2 + i % 19
    rest = i % modulus
    x, y = 100 + i % 400, 250
    less, congruent = f"x - y < {bound}", f"x + 2*y = {rest} mod {modulus}"
    is_less, is_congruent = x - y < bound, (x + 2 * y) % modulus == rest
    text, value = [
        (less, is_less),
        (congruent, is_congruent),
        (f"({less} && {congruent})", is_less and is_congruent),
        (f"(!{less} || {congruent})", not is_less or is_congruent),
    ][number % 4]
    return text, value, x + y


def run(number: int) -> tuple[int, str, float]:
    start = time.monotonic()
    done = subprocess.run([PROGRAM, "demo", str(number)], stdin=subprocess.DEVNULL, capture_output=True, text=True)
    return done.returncode, done.stdout, time.monotonic() - start


def check(number: int, status: int, text: str) -> None:
    pred, value, agents = case(number)
    lines = text.split("\n")
    assert lines[:3] == [f"demo {number}", f"pred {pred}", f"agents {agents}"], text
    assert lines[3].startswith("rounds ") and lines[4].startswith("changed "), text
    assert status in ENDINGS and lines[5].startswith(ENDINGS[status]) and lines[6:] == [""], text
    if status == 0:
        assert lines[5] == f"verdict {str(value).lower()}", text


def main() -> None:
    expect_program()
    ended = 0
    for number in range(TWICE):
        status, text, _ = run(number)
        check(number, status, text)
        assert run(number)[:2] == (status, text), number
        ended += status == 0
    print(f"cases 0 to {TWICE - 1}: {ended} ended with a verdict, {TWICE - ended} with their turns used up")
    times: list[tuple[float, int]] = []
    ended = 0
    for number in SPREAD:
        status, text, seconds = run(number)
        check(number, status, text)
        times.append((seconds, number))
        ended += status == 0
    seconds, slowest = max(times)
    mean = sum(time for time, _ in times) / len(times)
    print(
        f"{len(times)} of 10,000: {ended} with a verdict; {mean:.3f} s on the average, at most {seconds:.3f} s (case"
        f" {slowest})"
    )
    row("demo", f"{len(times)} cases over all 10,000, of which {ended} come to their end; each", mean)


main()
