"""Journals of the proved program, replayed agent by agent for their curves. Whether one is true, `pop replay` says."""
from __future__ import annotations

import re
from collections import Counter
from typing import Sequence

from ..faults import InputFault
from ..text.files import load
from ..protocol.nets import Net
from ..wholes import whole_of
from .crowds import counts_of, crowd_words
from .curves import Curve, Recorder, filled
from ..protocol.reactions import Reactions, Word

_MEETING = re.compile(r"([0-9]+) ([0-9]+) ([0-9]+)( \*)?")
_RUN = re.compile(r"(run|watch) workers [0-9]+ shards [0-9]+ turns [0-9]+ seed ([0-9]+)")
VERDICT = "verdict "  # the last line where the crowd is terminal; a journal that was cut off has another
SETTLED = "settled "  # the last line where the outputs stay; the crowd may be terminal
RUN_AGENTS = 65_536  # more agents the program doesn't run


class Agents:
    """A crowd agent by agent, in the order of the program's numbers; what it counts is what a simulation counts."""

    def __init__(self, net: Net, counts: Sequence[int]) -> None:
        self.reactions = Reactions(net)
        starts = [tuple(leaf.inputs[i] for leaf in net.leaves) for i, k in enumerate(counts) for _ in range(k)]
        self.words: list[Word] = starts + [
            tuple(leaf.helpers[j] for leaf in net.leaves) for j in range(len(net.leaves[0].helpers))
        ]
        self.agents = len(self.words)
        self.known: dict[tuple[Word, Word], tuple[Word, Word, int] | None] = {}
        self.yes = sum(map(self.reactions.output, self.words))
        self.meetings = self.changes = self.last_change = 0
        self.since = 0 if self.yes in (0, self.agents) else None

    def _made(self, both: tuple[Word, Word]) -> tuple[Word, Word, int] | None:
        made = self.reactions.after(*both)
        if made is None:
            return None
        yes = [self.reactions.output(word) for word in (*made, *both)]
        return made[0], made[1], yes[0] + yes[1] - yes[2] - yes[3]

    def meet(self, a: int, b: int) -> bool:
        """Two different agents meet; whether that changed something."""
        both = self.words[a], self.words[b]
        if both not in self.known:
            self.known[both] = self._made(both)
        made = self.known[both]
        self.meetings += 1
        if made is None:
            return False
        self.words[a], self.words[b], yes = made
        self.changes += 1
        self.last_change = self.meetings
        if yes:
            self.yes += yes
            self.since = self.meetings if self.yes in (0, self.agents) else None
        return True

    def crowd(self) -> dict[str, int]:
        """How many agents have each word, by name."""
        out: dict[Word, int] = {}
        for word in self.words:
            out[word] = out.get(word, 0) + 1
        return {self.reactions.name(word): k for word, k in sorted(out.items())}

    def is_terminal(self) -> bool:
        """Whether no two of the agents react."""
        count = Counter(self.words)
        pairs = ((p, q) for p in count for q in count if p != q or count[p] > 1)
        return all(self.reactions.after(p, q) is None for p, q in pairs)

    def outputs(self, names: Sequence[str]) -> dict[str, bool]:
        """What words output, by their names."""
        states = [{name: q for q, name in enumerate(leaf.states)} for leaf in self.reactions.net.leaves]
        return {
            name: self.reactions.output(tuple(at[part] for at, part in zip(states, name.split("/")))) for name in names
        }


def meetings_of(lines: Sequence[str], agents: int, name: str, first: int) -> list[tuple[int, int, bool]]:
    """The meetings of a journal's lines: two agents, and whether it is marked; `first` numbers the first line."""
    out = []
    for at, line in enumerate(lines, first):
        match = _MEETING.fullmatch(line)
        if match is None:
            if line == "end":
                break
            if not line.startswith("round "):
                raise InputFault(f"{name}:{at}: this is no line of a journal: {line[:80]}")
            continue
        a, b = whole_of(match[2]), whole_of(match[3])
        if a == b or max(a, b) >= agents:
            raise InputFault(f"{name}:{at}: agents {a} and {b} are no two of {agents}")
        out.append((a, b, match[4] is not None))
    return out


def read_journal(text: str, name: str) -> Curve:
    """The curve of what `run` or `watch` printed; InputFault where the text is none."""
    lines = text.splitlines()
    run = _RUN.fullmatch(lines[2]) if len(lines) > 2 else None
    if run is None or not lines[1].startswith("crowd"):
        raise InputFault(
            f"{name}: this is no journal: it begins with a bundle, a crowd line and a line `run workers ..`"
        )
    net = load(lines[0], name).net
    counts = counts_of(net, lines[1].split()[1:])
    if sum(counts) > RUN_AGENTS:
        raise InputFault(f"{name}: a journal has at most {RUN_AGENTS:,} agents")
    crowd = Agents(net, counts)
    recorder = Recorder()
    recorder.note(0, crowd.crowd)
    for a, b, marked in meetings_of(lines[3:], crowd.agents, name, 4):
        recorder.ahead(crowd.meetings + 1)
        changed = crowd.meet(a, b)
        if changed != marked:
            raise InputFault(
                f"{name}: meeting {crowd.meetings} {'changes' if changed else 'does not change'} a tuple, "
                "and its mark says otherwise; `bin/pop replay` tells more"
            )
        if changed:
            recorder.note(crowd.meetings, crowd.crowd)
    recorder.end(crowd.meetings, crowd.crowd)
    names = {word for found in recorder.crowds for word in found}
    terminal = lines[-1].startswith(VERDICT) or (lines[-1].startswith(SETTLED) and crowd.is_terminal())
    curve = Curve(
        title="",
        crowd=crowd_words(net, counts),
        seed=run[2],
        agents=crowd.agents,
        meetings=crowd.meetings,
        last_change=crowd.last_change,
        since=crowd.since,
        terminal=terminal,
        source=run[1],
    )
    return filled(curve, recorder.times, recorder.crowds, crowd.outputs(sorted(names)))
