"""From what the program printed to sentences: the first line, or the status where no line is known."""
from __future__ import annotations

import re
from typing import Callable, Sequence

from ...engine.inputs import Asked
from ...statuses import DIFFERS, NO_MEMORY, NOT_BUILT, READ_FAULT, REFUSED, REJECTED, UNDECIDED, USAGE, WRITE_FAULT
from .formats import format_told, not_json_told
from .journals import differs_told, journal_told
from .lines import count_told, line_told, settle_told, size_told, variables
from .predicates import atoms_told, long_told, predicate_told, range_told, states_told, wide_told, width_told
from .proofs import rejected_told
from .usage import usage_told

STATUSES = {
    USAGE: "the words mean no command; `pop help` has them",
    REFUSED: (
        "the input is malformed or over a limit; with the file as an argument, as in `pop check FILE`, the "
        "place is shown"
    ),
    REJECTED: "the proof isn't valid; `pop explain FILE` shows what is missing",
    UNDECIDED: "the turns are used up before the crowd's end; `--turns N` gives more",
    DIFFERS: "the journal isn't that of a run; `differs` has the first line that isn't as it has to be",
    READ_FAULT: "reading the input failed",
    WRITE_FAULT: "writing failed: the disk is full, or the reader has gone; the output is cut off",
    NO_MEMORY: "out of memory; nothing was printed",
    NOT_BUILT: "the program isn't built",
}
BY_SIGNAL = 128
INPUT_LIMIT = 134_217_728


def _predicate(asked: Asked, why: str, at: int) -> list[str]:
    text = asked.lines[1] if len(asked.lines) > 1 else ""
    return predicate_told(why, at, text, variables(asked), asked.has_guessed_names)


# the program's lines, and what tells of each
FAULTS: list[tuple[str, Callable[..., list[str]]]] = [
    (r"fault: read", lambda asked: [STATUSES[READ_FAULT]]),
    (r"fault: too long", lambda asked: [f"the input has over {INPUT_LIMIT:,} bytes"]),
    (r"fault: line (\d+) (missing|extra|form|agents)", lambda asked, n, why: line_told(asked, int(n), why)),
    (r"fault: not json", not_json_told),
    (r"fault: format (\S*) (kind|range|name|shape|pred .*)", format_told),
    (r"fault: pred long (\d+)", lambda asked, n: long_told(int(n))),
    (r"fault: pred (syntax|unknown|large|deep) (\d+)", lambda asked, why, at: _predicate(asked, why, int(at))),
    (r"fault: count (\d+)", lambda asked, n: count_told(asked, int(n))),
    (r"fault: atoms (\d+)", lambda asked, n: atoms_told(int(n))),
    (r"fault: width (\d+) (\d+)", lambda asked, atom, size: width_told(int(atom), int(size))),
    (r"fault: range (\d+)", lambda asked, atom: range_told(int(atom))),
    (r"fault: states (\d+) (\d+)", lambda asked, atom, states: states_told(int(atom), int(states))),
    (r"fault: wide (\d+)", lambda asked, atom: wide_told(int(atom))),
    (
        r"fault: journal (\d+) (missing|form|worker|agents|round)",
        lambda asked, n, why: journal_told(asked, int(n), why),
    ),
    (r"fault: settle (\d+)", lambda asked, n: settle_told(int(n))),
    (r"fault: size (\d+)", lambda asked, n: size_told(asked, int(n))),
    (r"(rejected .*)", rejected_told),
]
_USAGE = re.compile(r"fault: usage (\d+) (missing|unknown|twice|value|product)")


def status_told(status: int) -> list[str]:
    """A sentence on a status alone."""
    if status < 0 or status > BY_SIGNAL:
        return [f"the program was ended by signal {-status if status < 0 else status - BY_SIGNAL}"]
    return [STATUSES.get(status, f"the program ended with status {status}")]


def told(asked: Asked, lines: Sequence[str], status: int, others: Sequence[str] = ()) -> list[str]:
    """Sentences on an answer; at least one where its status isn't 0."""
    first = lines[0] if lines else ""
    try:
        usage = _USAGE.fullmatch(first)
        if usage:
            return usage_told(asked.words, int(usage[1]), usage[2], others)
        if first.startswith("differs ") and len(lines) >= 3:
            return differs_told(asked, lines)
        for pattern, tells in FAULTS:
            found = re.fullmatch(pattern, first)
            if found:
                return tells(asked, *found.groups())
    except (ValueError, IndexError, KeyError, TypeError, AttributeError, RecursionError):
        # a sentence is worth less than an end without one
        return status_told(status)
    return status_told(status)
