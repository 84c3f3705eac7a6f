"""The edge of the program: the same words and the same bytes, through pipes, files and closed ends, and in memory.

A case is a row of crates/row_tests, whose input is cut, doubled, reordered or changed. `row_tests` is the oracle: it
calls `run_tool` over a source and a sink in memory, in its own process.
"""
from __future__ import annotations

import json
import os
import random
import subprocess
import tempfile
from dataclasses import dataclass
from pathlib import Path

TOP = Path(__file__).resolve().parents[2]
ROWS = TOP / "crates/row_tests/stdin"
ORACLE = Path(os.environ.get("ROW_TESTS", TOP / "crates/row_tests/out/row_tests"))
SECONDS = 60  # of a call
SHORT = 6_000  # bytes of an input that is changed
PIECE = 97  # bytes that a slow writer writes at once
KEPT = 0.4  # this part of the inputs stays as it is
COMMANDS = ("check", "show", "run", "replay", "settle", "compile", "eval", "play", "demo")
OTHER = "other"  # words that mean no command
Answer = tuple[int, bytes]


@dataclass(frozen=True)
class Case:
    """The words of a call, and its input."""

    words: tuple[str, ...]
    data: bytes


def is_plain(row: dict[str, object]) -> bool:
    """A row whose answer depends on nothing but its words and its input."""
    words = [str(word) for word in row["words"]] if isinstance(row["words"], list) else []
    alone = "watch" not in words and not any("workers" in word or "shards" in word for word in words)
    pieces = row.get("input", [])
    return alone and isinstance(pieces, list) and "reads" not in row and "writes" not in row


def known_cases() -> dict[str, list[Case]]:
    """The rows with short inputs, by their command."""
    found: dict[str, list[Case]] = {}
    for line in ROWS.read_text().splitlines():
        row = json.loads(line)
        if not is_plain(row) or not all(isinstance(piece, str) for piece in row.get("input", [])):
            continue
        data = "".join(row.get("input", [])).encode()
        if len(data) <= SHORT:
            first = (row["words"] or [""])[0]
            found.setdefault(first if first in COMMANDS else OTHER, []).append(Case(tuple(row["words"]), data))
    return found


def changed(data: bytes, chance: random.Random) -> bytes:
    """The input, or one that differs from it a little; it stays UTF-8, as a row is."""
    if chance.random() < KEPT:
        return data
    lines = data.decode().splitlines(keepends=True)
    at = chance.randrange(len(lines) + 1)
    kind = chance.randrange(6)
    if kind == 0:
        return "".join(lines[:at]).encode()
    if kind == 1:
        return "".join(lines[:at] + lines[at - 1 : at] + lines[at:]).encode()
    if kind == 2:
        chance.shuffle(lines)
        return "".join(lines).encode()
    text = data.decode()
    spot = chance.randrange(len(text) + 1)
    if kind == 3:
        return text[:spot].encode()
    other = chance.choice('0123456789xy"[]{},: \n\t-+=<>!&|é\x00')
    return (text[:spot] + other + text[spot + (kind == 4) :]).encode()


def cases(seed: int, count: int) -> list[Case]:
    """So many cases, of each command in turn."""
    chance = random.Random(seed)
    known = known_cases()
    commands = sorted(known)
    out = []
    for number in range(count):
        case = chance.choice(known[commands[number % len(commands)]])
        out.append(Case(case.words, changed(case.data, chance)))
    return out


def piped(program: str, case: Case) -> Answer:
    done = subprocess.run([program, *case.words], input=case.data, stdout=subprocess.PIPE, timeout=SECONDS)
    return done.returncode, done.stdout


def filed(program: str, case: Case) -> Answer:
    """The same from a file and into a file."""
    with tempfile.TemporaryFile() as source, tempfile.TemporaryFile() as sink:
        source.write(case.data)
        source.seek(0)
        done = subprocess.run([program, *case.words], stdin=source, stdout=sink, timeout=SECONDS)
        sink.seek(0)
        return done.returncode, sink.read()


def trickled(program: str, case: Case) -> Answer:
    """The same from a pipe that is written piece by piece."""
    run = subprocess.Popen([program, *case.words], bufsize=0, stdin=subprocess.PIPE, stdout=subprocess.PIPE)
    assert run.stdin is not None and run.stdout is not None
    try:
        for at in range(0, len(case.data), PIECE):
            run.stdin.write(case.data[at : at + PIECE])
    except BrokenPipeError:  # it needs no more
        pass
    run.stdin.close()
    text = run.stdout.read()
    run.stdout.close()
    return run.wait(SECONDS), text


def closed(program: str, case: Case) -> int:
    """The status where standard output is closed."""
    shell = ["sh", "-c", 'exec "$0" "$@" >&-', program, *case.words]
    return subprocess.run(shell, input=case.data, timeout=SECONDS).returncode


def in_memory(answered: list[tuple[Case, Answer]]) -> str:
    """What `row_tests` says of these answers: the rows that do not hold, and how many were tried."""
    rows = (
        {
            "name": f"case {number}",
            "words": list(case.words),
            "input": [case.data.decode()],
            "text": [text.decode()],
            "status": [status],
        }
        for number, (case, (status, text)) in enumerate(answered)
    )
    lines = "".join(json.dumps(row) + "\n" for row in rows).encode()
    done = subprocess.run([ORACLE], input=lines, stdout=subprocess.PIPE, timeout=SECONDS * 60, check=True)
    return done.stdout.decode()
