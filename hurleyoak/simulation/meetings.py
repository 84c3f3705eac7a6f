"""Meetings as `play` takes them, replayed agent by agent: a net, a crowd line, and two agents a line."""
from __future__ import annotations

import re
from dataclasses import dataclass
from typing import Iterator

from ..faults import InputFault
from ..protocol.nets import Net
from ..protocol.naming import state_text
from ..text.files import load
from ..wholes import whole_of
from .crowds import counts_of, crowd_words
from .curves import Curve, Recorder, filled
from .journals import RUN_AGENTS, Agents

_PAIR = re.compile(r"([0-9]{1,9}) ([0-9]{1,9})")


def is_list(text: str) -> bool:
    """Whether a text is a list of meetings; a journal's third line is another."""
    lines = text.splitlines()
    return len(lines) > 2 and lines[0][:1] == "{" and lines[1][:5] == "crowd" and bool(_PAIR.fullmatch(lines[2]))


@dataclass(frozen=True)
class Meetings:
    """The net, the crowd's counts, and two agents for each meeting."""

    net: Net
    counts: tuple[int, ...]
    pairs: list[tuple[int, int]]

    @property
    def crowd(self) -> str:
        """The crowd, as in `x=2 y=1`."""
        return crowd_words(self.net, self.counts)


@dataclass(frozen=True)
class Step:
    """A crowd, and behind the first one the meeting that led there, with the move; no move where nothing changed."""

    crowd: dict[str, int]
    pair: tuple[int, int] | None = None
    move: str = ""


def read_meetings(text: str, name: str) -> Meetings:
    """The list of a text; InputFault where it is malformed."""
    lines = text.splitlines()
    net = load(lines[0], name).net
    counts = counts_of(net, lines[1].split()[1:])
    agents = sum(counts) + len(net.leaves[0].helpers)
    if agents > RUN_AGENTS:
        raise InputFault(f"{name}: meetings are shown of at most {RUN_AGENTS:,} agents")
    pairs = []
    for at, line in enumerate(lines[2:], 3):
        found = _PAIR.fullmatch(line)
        a, b = (whole_of(found[1]), whole_of(found[2])) if found else (0, 0)
        if a == b or max(a, b) >= agents:
            raise InputFault(f"{name}:{at}: this is no meeting of two of {agents} agents: {line[:80]}")
        pairs.append((a, b))
    return Meetings(net, counts, pairs)


def steps_of(made: Meetings) -> Iterator[Step]:
    """The crowds one after the other."""
    crowd = Agents(made.net, made.counts)
    named = crowd.reactions.name
    yield Step(crowd.crowd())
    for a, b in made.pairs:
        before = crowd.words[a], crowd.words[b]
        is_changed = crowd.meet(a, b)
        p, q, r, s = (state_text(named(word)) for word in (*before, crowd.words[a], crowd.words[b]))
        yield Step(crowd.crowd(), (a, b), f"{p} + {q} -> {r} + {s}" if is_changed else "")


def outputs_of(made: Meetings, names: list[str]) -> dict[str, bool]:
    """What the words output."""
    return Agents(made.net, made.counts).outputs(names)


def meetings_curve(text: str, name: str) -> Curve:
    """The curve of a list of meetings."""
    made = read_meetings(text, name)
    crowd, recorder = Agents(made.net, made.counts), Recorder()
    recorder.note(0, crowd.crowd)
    for a, b in made.pairs:
        recorder.ahead(crowd.meetings + 1)
        if crowd.meet(a, b):
            recorder.note(crowd.meetings, crowd.crowd)
    recorder.end(crowd.meetings, crowd.crowd)
    names = sorted({word for found in recorder.crowds for word in found})
    curve = Curve(
        title="",
        crowd=made.crowd,
        seed="",
        agents=crowd.agents,
        meetings=crowd.meetings,
        last_change=crowd.last_change,
        since=crowd.since,
        terminal=crowd.is_terminal(),
        source="meetings",
    )
    return filled(curve, recorder.times, recorder.crowds, crowd.outputs(names))
