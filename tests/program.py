#!/usr/bin/python3
"""Runs the built program as a process, where its streams or its words are not the usual ones.

Run from the top of the repository: tests/program.py [--short | --long] [PROGRAM]; --short is the usual, and --long
does to each command what --short does to `check` and `run`. One line for each case: what is done, and whether the
status and the text are the expected ones. The status is 1 where any differs. What the program does with such streams
is the operating system's part: no contract speaks of it.
"""

from __future__ import annotations

import os
import subprocess
import sys
from collections.abc import Iterator, Sequence

TOP = os.path.dirname(os.path.dirname(os.path.abspath(__file__)))
IS_LONG = "--long" in sys.argv[1:]
GIVEN = [word for word in sys.argv[1:] if word not in ("--short", "--long")]
PROGRAM = GIVEN[0] if GIVEN else os.path.join(TOP, "crates/pop_main/out/pop_main")
MAJORITY = os.path.join(TOP, "examples/majority")
# a status and a text; words may be no UTF-8
Answer = tuple[int, bytes]
Words = Sequence[str | bytes]


def text_of(name: str) -> bytes:
    with open(os.path.join(MAJORITY, name), "rb") as file:
        return file.read()


def piped(words: Words, data: bytes) -> Answer:
    """The status and the text of the program with these words over this input."""
    done = subprocess.run([PROGRAM, *words], input=data, stdout=subprocess.PIPE, timeout=60)
    return done.returncode, done.stdout


def closed_input(words: Words) -> Answer:
    """The same where standard input is closed."""
    done = subprocess.run(["sh", "-c", 'exec "$0" "$@" <&-', PROGRAM, *words], stdout=subprocess.PIPE, timeout=60)
    return done.returncode, done.stdout


def full_output(words: Words, data: bytes) -> Answer:
    """The status where standard output takes no byte."""
    with open("/dev/full", "wb") as full:
        done = subprocess.run([PROGRAM, *words], input=data, stdout=full, timeout=60)
    return done.returncode, b""


def closed_output(words: Words, data: bytes) -> Answer:
    """The same where standard output is closed."""
    done = subprocess.run(["sh", "-c", 'exec "$0" "$@" >&-', PROGRAM, *words], input=data, timeout=60)
    return done.returncode, b""


def broken_pipe(words: Words, data: bytes) -> Answer:
    """The same where the reader of standard output has gone before the program writes."""
    reader, writer = os.pipe()
    os.close(reader)
    done = subprocess.run([PROGRAM, *words], input=data, stdout=writer, timeout=60)
    os.close(writer)
    return done.returncode, b""


def cases() -> Iterator[tuple[str, Answer, Answer]]:
    bundle, counts = text_of("bundle.json"), text_of("crowd.txt")
    run = bundle + counts
    certified = text_of("check.expected")
    yield "check", piped(["check"], bundle), (0, certified)
    yield "check, standard input closed", closed_input(["check"]), (6, b"fault: read\n")
    yield "check, standard output full", full_output(["check"], bundle), (7, b"")
    yield "check, standard output closed", closed_output(["check"], bundle), (7, b"")
    yield "check, a pipe without a reader", broken_pipe(["check"], bundle), (7, b"")
    yield "run, a pipe without a reader", broken_pipe(["run"], run), (7, b"")
    yield "no words", piped([], b""), (1, b"fault: usage 0 missing\n")
    yield "a second word", piped(["check", "check"], bundle), (1, b"fault: usage 1 unknown\n")
    yield "a word that is no UTF-8", piped([b"\xff\xfe"], b""), (1, b"")
    yield "a second word that is no UTF-8", piped(["run", b"\xff"], run), (1, b"")
    yield "an empty word", piped([""], b""), (1, b"fault: usage 0 unknown\n")
    last = piped(["run", "--workers", "1", "--turns", "0", "--seed", "7"], run)
    first_line = last[1].splitlines()[2] if last[1].count(b"\n") > 2 else b""
    yield "the last of many words counts", (last[0], first_line), (4, b"run workers 1 shards 16 turns 0 seed 7")


def commands() -> list[tuple[list[str], bytes]]:
    """Each command's words, with an input that it carries out."""
    bundle, counts, net = text_of("bundle.json"), text_of("crowd.txt"), text_of("play.txt")
    predicate = b"vars x y\nx - y < 3\n"
    run = bundle + counts
    journal, watched = piped(["run"], run)[1], piped(["watch"], run)[1]
    return [
        (["play"], net),
        (["eval"], predicate + counts),
        (["check"], bundle),
        (["show"], bundle),
        (["run", "--workers", "4"], run),
        (["watch"], run),
        (["settle"], run),
        (["compile"], predicate),
        (["compile", "--flocks"], predicate),
        (["compile", "--succinct"], predicate),
        (["replay"], journal),
        (["replay", "--watched"], watched),
    ]


def long_cases() -> Iterator[tuple[str, Answer, Answer]]:
    """The streams of each command, closed, full and broken."""
    for words, data in commands():
        name = " ".join(words)
        yield f"{name}, standard input closed", closed_input(words), (6, b"fault: read\n")
        for how, output in (
            ("full", full_output),
            ("closed", closed_output),
            ("a pipe without a reader", broken_pipe),
        ):
            yield f"{name}, standard output {how}", output(words, data), (7, b"")
    yield "demo, standard input closed", (closed_input(["demo", "21"])[0] in (0, 4), b""), (True, b"")
    yield "demo, standard output full", full_output(["demo", "21"], b""), (7, b"")


def main() -> int:
    differing = 0
    for name, found, wanted in [*cases(), *(long_cases() if IS_LONG else ())]:
        same = found == wanted
        differing += not same
        print(f"{'same   ' if same else 'DIFFERS'} {name}: status {found[0]}")
        if not same:
            print(f"        found {found[1]!r}, wanted status {wanted[0]} and {wanted[1]!r}")
    return 1 if differing else 0


if __name__ == "__main__":
    sys.exit(main())
