"""Sentences on journals: `fault: journal N WHY`, and `differs N` with what was kept and found."""
from __future__ import annotations

import re
from typing import Sequence

from ...engine.inputs import Asked
from .quoting import quoted, short

FIRST = 2  # how many lines come before a journal
NO_JOURNAL = "a journal is what `run` prints"


def journal_told(asked: Asked, number: int, why: str) -> list[str]:
    """On `fault: journal N WHY`."""
    line = asked.lines[number - 1] if number <= len(asked.lines) else ""
    place = [f"{asked.file or 'line'}{':' if asked.file else ' '}{number}", *quoted(line, 0)]
    if why == "missing":
        return [
            f"the journal ends before line {number}: "
            + ("a round lacks meetings, or the line `end` is missing" if number > FIRST + 1 else NO_JOURNAL)
        ]
    if why == "worker":
        workers = _workers(asked)
        return [
            (
                f"line {number} names a worker that doesn't "
                f"exist{f' (there are workers 0 to {workers - 1})' if workers else ''} or has all its meetings of "
                "this round"
            ),
            *place,
        ]
    if why == "agents":
        return [f"line {number} names one agent twice, or one that isn't there; they are numbered from 0", *place]
    if why == "round":
        return [f"line {number} begins a round, and all turns are used up before it", *place]
    return [_form(asked, number, line), *place]


def _workers(asked: Asked) -> int:
    found = re.match(r"\w+ workers (\d+) ", asked.lines[FIRST] if len(asked.lines) > FIRST else "")
    return int(found.group(1)) if found else 0


def _form(asked: Asked, number: int, line: str) -> str:
    if "\r" in line:
        return f"line {number} ends in CR and LF; a line ends in LF alone"
    if number == FIRST + 1:
        is_watched = "--watched" in asked.words
        if line.startswith("watch ") and not is_watched:
            return "this is a journal of `watch`: give `--watched`"
        if line.startswith("run ") and is_watched:
            return "this is a journal of `run`: leave `--watched` out"
        return "a journal begins with `run workers W shards S turns T seed N`, within the options' limits"
    return (
        f"line {number} can't be here in a journal, which goes on with `worker a b`, with ` *` after it if something"
        " changed, `round` with the next number, or `end`"
    )


def differs_told(asked: Asked, lines: Sequence[str]) -> list[str]:
    """On the three lines of a difference."""
    found = re.fullmatch(r"differs (\d+)", lines[0])
    number = int(found.group(1)) if found else 0
    kept, wanted = lines[1].removeprefix("kept: "), lines[2].removeprefix("found: ")
    before = asked.lines[: number - 1]
    return [f"line {number} of the journal isn't what this run prints: {_difference(kept, wanted, 'end' in before)}"]


def _difference(kept: str, wanted: str, is_behind_end: bool) -> str:
    if kept + " *" == wanted:
        return "the meeting changes something, and the mark ` *` is missing"
    if kept == wanted + " *":
        return "the meeting changes nothing, and it has the mark ` *`"
    if is_behind_end and not kept:
        return f"the line `{short(wanted)}` is missing"
    if is_behind_end and not wanted:
        return f"`{short(kept)}` is one line too many"
    if is_behind_end:
        return f"the crowd and the last line at its end have `{short(wanted)}` here"
    if wanted == "end":
        return "the crowd has come to its end before it"
    if kept == "end":
        return f"the run goes on with `{short(wanted)}`: the crowd isn't at its end"
    return f"the worker's next pair is `{short(wanted)}`"
