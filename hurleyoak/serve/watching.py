"""Lists of meetings that the program made, for Play: a journal of `run` or `watch`, and what `settle` takes."""
from __future__ import annotations

import re
from typing import Any, Sequence

from ..engine import program
from ..protocol.nets import Net
from ..search.playing import crowd_line
from ..simulation.crowds import counts_of
from ..simulation.journals import meetings_of
from ..text.files import load
from ..text.loaded import bundle_in, strict_bundle
from ..text.writer import loaded_text
from .limits import MEETINGS_PLAYED, SECONDS
from .protocol import NAME, Fault, loaded_of
from .request import Request, Tell, counts_in, text_in

AGENTS_DRAWN = 300
END = "end"
_TAKE = re.compile(r"take ([0-9]+) ([0-9]+) ([0-9]+) ([0-9]+)")
_CROWD = re.compile(r"(\S+) ([0-9]+)")


def end_of(lines: Sequence[str]) -> tuple[dict[str, int], str]:
    """The crowd behind `end`, and the last line."""
    crowd: dict[str, int] = {}
    for line in lines[lines.index(END) + 1 : -1]:
        found = _CROWD.fullmatch(line)
        if found:
            crowd[found[1]] = int(found[2])
    return crowd, lines[-1]


def _list(net: Net, words: Sequence[str], meetings: list[list[int]], lines: Sequence[str]) -> dict[str, Any]:
    counts = counts_of(net, words)
    crowd, last = end_of(lines)
    return {"counts": dict(zip(net.names, counts)), "meetings": meetings, "end": crowd, "last": last}


def journal_list(text: str) -> dict[str, Any] | None:
    """What Play takes of a journal; None where it has more agents or meetings than are drawn."""
    lines = text.splitlines()
    net = load(lines[0], NAME).net
    words = lines[1].split()[1:]
    agents = sum(counts_of(net, words)) + len(net.leaves[0].helpers)
    meetings = [[a, b] for a, b, _ in meetings_of(lines[3:], agents, NAME, 4)]
    if agents > AGENTS_DRAWN or len(meetings) > MEETINGS_PLAYED:
        return None
    return _list(net, words, meetings, lines)


def journal_task(request: Request, tell: Tell) -> dict[str, Any]:
    """A journal that was opened: its protocol as a text, and its meetings, once the program has replayed it."""
    text = text_in(request, "text")
    lines = text.splitlines()
    if len(lines) < 4 or END not in lines:
        raise Fault(["this is no journal: it begins with a bundle, a crowd line and a line `run workers ..`"])
    words = ["replay", *(["--watched"] if lines[2].startswith("watch ") else [])]
    answer = program.ask(words, text if text.endswith("\n") else f"{text}\n", SECONDS["run"])
    if answer.status != program.DONE:
        raise Fault(["the program doesn't hold this journal:", *answer.text.splitlines()[:3]])
    found = journal_list(text)
    if found is None:
        raise Fault(
            [f"Play shows up to {AGENTS_DRAWN} agents and {MEETINGS_PLAYED:,} meetings; this journal has more"]
        )
    loaded = load(lines[0], NAME)
    return {**found, "replay": answer.first_line, "text": loaded_text(loaded, bundle_in(loaded))}


def settle_task(request: Request, tell: Tell) -> dict[str, Any]:
    """What `settle` takes, move by move: two agents, the leaf and the move."""
    loaded = loaded_of(request)
    bundle = strict_bundle(loaded)
    words = counts_in(request)
    counts = counts_of(loaded.net, words)
    answer = program.ask(["settle"], f"{bundle.line()}\n{crowd_line(loaded.net.names, counts)}\n", SECONDS["run"])
    lines = answer.text.splitlines()
    if answer.status != program.DONE:
        raise Fault([f"the program doesn't settle it: {answer.first_line}"])
    takes = [found for found in map(_TAKE.fullmatch, lines) if found]
    if len(takes) > MEETINGS_PLAYED:
        raise Fault([f"Play shows up to {MEETINGS_PLAYED:,} meetings; there are {len(takes):,}"])
    return _list(loaded.net, words, [[int(one[3]), int(one[4]), int(one[1]), int(one[2])] for one in takes], lines)
