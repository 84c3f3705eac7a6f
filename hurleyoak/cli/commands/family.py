"""`find` of a family: a line for each member, with what the program said of it."""
from __future__ import annotations

import time
from itertools import chain

from ...engine import program
from ...engine.claims import claimed
from ...statuses import DONE, UNDECIDED
from ...text.families import member_name
from ...writing import write_text
from ..table.reading import Given
from ..usage import UsageFault
from .inputs import WITH, as_words, load_member, named

ONE_ALONE = ("--save", "--mend", "--text", "--write")
HEAD = ("member", "states", "moves", "seconds", "answer")
WRONG, NOT_FOUND = "wrong: `refute` shows how", "not found"
LEFT_OUT = "not found: wrong only at inputs that `assume` leaves out"
NOT_TRIED = ("-", "-", "-", "not tried: the time was up")


def _answer(given: Given, values: dict[str, int], text: str, seconds: float) -> tuple[str, ...]:
    """The row of a member, which is looked for so long; the last cell is the program's line, or why there is none. Once
    no time is left, it isn't even read."""
    if seconds <= 0.0:
        return member_name(values), *NOT_TRIED
    from ...search.finding import find
    from ...search.processes import processors

    loaded = load_member(text, values, named(given.path))
    begun = time.time()
    jobs = given.whole("--jobs") or processors()
    tame = given.has("--tame")
    found = find(loaded, seconds, given.number("--small"), jobs, given.has("--anew"), tame=tame)
    if found.bundle is not None:
        answer = program.check(found.bundle.line()).first_line
    else:
        answer = WRONG if found.flaw is not None else LEFT_OUT if found.left_out is not None else NOT_FOUND
    leaves = loaded.net.leaves
    states, moves = sum(len(leaf.states) for leaf in leaves), sum(len(leaf.moves) for leaf in leaves)
    return member_name(values), str(states), str(moves), f"{time.time() - begun:.1f}", answer


def find_all(given: Given, found: list[dict[str, int]], text: str) -> int:
    """Prints the table as it comes, or writes it; 4 where a member isn't certified."""
    for option in ONE_ALONE:
        if given.has(option):
            raise UsageFault(
                f"`{option}` is for one protocol: `{WITH} {as_words(found[0])}` chooses one of the family"
            )
    path, lines = given.text("--output"), []
    widths = [max(len(HEAD[0]), *(len(member_name(values)) for values in found)), *map(len, HEAD[1:])]
    status = DONE
    end = time.monotonic() + given.number("--seconds")
    # (each member has its share of the time that is left)
    shares = (max(end - time.monotonic(), 0.0) / (len(found) - at) for at in range(len(found)))
    answers = (_answer(given, values, text, seconds) for values, seconds in zip(found, shares))
    for row in chain([HEAD], answers):
        cells = [cell.ljust(w) if i in (0, 4) else cell.rjust(w) for i, (cell, w) in enumerate(zip(row, widths))]
        lines.append("  ".join(cells) + "\n")
        if path is None:
            print(lines[-1], end="", flush=True)
        if row is not HEAD and not claimed(row[-1]):
            status = UNDECIDED
    if path is not None:
        write_text(path, "".join(lines))
    return status
