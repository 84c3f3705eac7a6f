"""Meetings played by the program, and crowds that a protocol gets wrong."""
from __future__ import annotations

import re
import time
from typing import Any

from ..engine import program
from ..faults import InputFault
from ..text.loaded import Loaded
from ..search.explore import explore
from ..search.flaws import WRONG, Flaw, Tried
from ..search.playing import crowd_line, play
from ..show.telling import agents_told, flaw_told, untried_told
from ..search.whole import system_of
from ..proof.names import Names
from ..protocol.nets import compact
from ..protocol.predicates import value_at
from .limits import AGENTS_TRIED, MEETINGS_PLAYED, SECONDS
from .protocol import Fault, loaded_of
from .request import Request, Tell, counts_in, whole_in

EVERY = 0.3  # seconds between two messages
MOST_REFUTE = 1_800
ROUND_SENT = 12
_ENABLED = re.compile(r"enabled (\d+) (\d+)")


def flaw_value(loaded: Loaded, flaw: Flaw) -> dict[str, Any]:
    """A counterexample, with its meetings where meetings lead to it: these the program has played to that end."""
    assert loaded.predicate is not None and flaw.leaf is not None
    net, tree = loaded.net, loaded.whole_tree()
    want = value_at(tree, flaw.counts)
    played = play(net, flaw, want) if flaw.by_meetings else None
    if played is not None and not played.is_as_told:
        raise InputFault(
            "the program plays this counterexample to another end; it isn't shown:\n" + "\n".join(played.printed)
        )
    names = Names(net.names, flaw.leaf)
    return {
        "endless": flaw.kind != WRONG,
        "counts": dict(zip(net.names, flaw.counts)),
        "want": want,
        "meetings": [list(pair) for pair in played.meetings] if played else None,
        "printed": played.printed if played else [],
        "wrong": played.wrong if played else [],
        "round": [agents_told(names, crowd) for crowd in flaw.round[:ROUND_SENT]],
        "told": flaw_told(net, tree, loaded.predicate, flaw, played).split("\n"),
        "file": played.text if played else "",
    }


def refute_task(request: Request, tell: Tell) -> dict[str, Any]:
    """Tries all crowds of few agents."""
    loaded = loaded_of(request)
    tree = loaded.whole_tree()
    agents = whole_in(request, "agents", 10, 1, AGENTS_TRIED)
    seconds = whole_in(request, "seconds", int(SECONDS["refute"]), 1, MOST_REFUTE)
    last = 0.0

    def progress(tried: Tried, now: int) -> None:
        nonlocal last
        if time.monotonic() - last > EVERY:
            last = time.monotonic()
            tell("tried", {"agents": now, "inputs": tried.inputs, "crowds": tried.crowds})

    flaw, tried = explore(system_of(loaded.net), tree, agents, seconds, progress, loaded.meets)
    if flaw is not None:
        return {"found": "flaw", **flaw_value(loaded, flaw)}
    return {
        "found": "nothing",
        "agents": tried.agents,
        "asked": agents,
        "inputs": tried.inputs,
        "crowds": tried.crowds,
        "untried": untried_told(loaded, tried),
    }


def _meetings_in(request: Request) -> list[tuple[int, int]]:
    value = request.get("meetings", [])
    if not isinstance(value, list) or len(value) > MEETINGS_PLAYED:
        raise Fault([f"at most {MEETINGS_PLAYED:,} meetings are played by the program"])
    out = []
    for one in value:
        if (
            not isinstance(one, list)
            or len(one) != 2
            or not all(isinstance(a, int) and not isinstance(a, bool) and a >= 0 for a in one)
        ):
            raise Fault(["a meeting is of two agents by their numbers"])
        out.append((one[0], one[1]))
    return out


def play_task(request: Request, tell: Tell) -> dict[str, Any]:
    """The meetings of the page played by the program: its crowd, and whether it is terminal."""
    loaded = loaded_of(request)
    counts = dict(word.split("=") for word in counts_in(request))
    numbers = tuple(int(counts.get(name, 0)) for name in loaded.net.names)
    line = crowd_line(loaded.net.names, numbers)
    meetings = _meetings_in(request)
    text = "\n".join([compact(loaded.net.value()), line, *(f"{a} {b}" for a, b in meetings)]) + "\n"
    answer = program.ask(["play"], text, SECONDS["play"])
    printed = answer.text.splitlines()
    if answer.status != 0 or not printed:
        raise Fault([f"the program doesn't play this: {answer.first_line}"])
    crowd = {name: int(count) for name, count in (row.rsplit(" ", 1) for row in printed[:-1])}
    enabled = _ENABLED.fullmatch(printed[-1])
    pair = [int(enabled[1]), int(enabled[2])] if enabled else None
    value = None
    if loaded.predicate is not None:
        asked = program.ask(
            ["eval"], f"vars {' '.join(loaded.net.names)}\n{loaded.predicate}\n{line}\n", SECONDS["play"]
        )
        value = {"true": True, "false": False}.get(asked.first_line)
    left_out = [] if loaded.meets(numbers) else loaded.assumed
    out = {
        "leftOut": left_out,
        "crowd": crowd,
        "terminal": printed[-1] == "terminal",
        "enabled": pair,
        "line": printed[-1],
    }
    return {**out, "meetings": len(meetings), "value": value}
