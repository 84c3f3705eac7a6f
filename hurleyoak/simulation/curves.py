"""A crowd's way over time: how many agents had which words, and when. It is written and read as a trace."""
from __future__ import annotations

import json
from dataclasses import dataclass, field
from typing import Callable, Sequence

from ..faults import InputFault
from ..text.jsontext import read_json
from .simulation import Simulation

MARK = "# trace "
SPACING = 200  # a row is held for at most 1/200 of the time after it ceased to be true

Named = Callable[[], dict[str, int]]  # gives a crowd by names


@dataclass(kw_only=True)
class Curve:
    """Counts by word at some meetings, each held until the next row.

    `outputs` says for each word what it outputs. `last_change` is the number of the last meeting that changed
    something. `since` is that of the meeting since which all agents output the same, or None. Where times aren't
    meetings divided by agents, `unit` says what they are, and `moments` has the time of each row.
    """

    title: str
    crowd: str
    seed: str
    agents: int
    meetings: int
    last_change: int
    since: int | None
    terminal: bool
    source: str
    unit: str = ""
    change_moment: float = 0.0
    since_moment: float | None = None
    names: list[str] = field(default_factory=list)
    outputs: list[bool] = field(default_factory=list)
    times: list[int] = field(default_factory=list)
    rows: list[list[int]] = field(default_factory=list)
    moments: list[float] = field(default_factory=list)

    @property
    def places(self) -> list[float]:
        """The times of the rows, in their unit."""
        return self.moments or [time / self.agents for time in self.times]

    def text(self) -> str:
        """The trace: a line of JSON behind `# trace`, then comma-separated values with a head."""
        about = {k: v for k, v in vars(self).items() if k not in ("times", "rows", "moments")}
        heads = ["meeting", "time"] if self.unit else ["meeting"]
        lines = [MARK + json.dumps(about), ",".join([*heads, *(quoted(name) for name in self.names)])]
        for at, (time, row) in enumerate(zip(self.times, self.rows)):
            lines.append(",".join(map(str, [time, *([f"{self.moments[at]:.10g}"] if self.unit else []), *row])))
        return "\n".join(lines) + "\n"


def quoted(name: str) -> str:
    """A field of comma-separated values, in quotes where it needs them."""
    return '"' + name.replace('"', '""') + '"' if set(name) & set(',"#') else name


class Recorder:
    """Keeps a crowd at chosen changes: at all early ones, and later about one for each half per cent of the time.

    A change that comes too early for a row waits, and the next one takes its place. It becomes a row of its own time
    before the next row, or at the end. So no row is held for more than half a per cent of the time after it ceased to
    be true.
    """

    def __init__(self) -> None:
        self.times: list[int] = []
        self.crowds: list[dict[str, int]] = []
        self.outputs: dict[str, bool] = {}
        self.next = 0
        self.waiting: tuple[int, Named] | None = None

    def note(self, meetings: int, crowd: Named) -> None:
        """Keeps the crowd if it is time; else it waits, and is asked for later. Who gives a crowd that goes on calls
        `ahead` before each meeting."""
        if meetings < self.next:
            self.waiting = meetings, crowd
            return
        self.flush()
        self._keep(meetings, crowd)

    def _keep(self, meetings: int, crowd: Named) -> None:
        self.times.append(meetings)
        self.crowds.append(crowd())
        self.next = meetings + 1 + meetings // SPACING

    def ahead(self, meetings: int) -> None:
        """Keeps the crowd that waits, if it is time at this meeting."""
        if meetings >= self.next:
            self.flush()

    def flush(self) -> None:
        """Keeps the crowd that waits."""
        if self.waiting:
            self._keep(*self.waiting)
        self.waiting = None

    def end(self, meetings: int, crowd: Named) -> None:
        """Keeps what waits and the last crowd, once."""
        self.flush()
        if not self.times or self.times[-1] < meetings:
            self._keep(meetings, crowd)

    def _now(self, run: Simulation) -> Named:
        """The crowd of a simulation as it is now."""
        words, counts, reactions = run.words, run.counts[:], run.reactions

        def crowd() -> dict[str, int]:
            found = {word: k for word, k in sorted(zip(words, counts)) if k}
            self.outputs.update((reactions.name(word), reactions.output(word)) for word in found)
            return {reactions.name(word): k for word, k in found.items()}

        return crowd

    def watch(self, run: Simulation) -> Callable[[], None]:
        """What a simulation calls at each change."""
        self.note(0, self._now(run))
        return lambda: self.note(run.meetings, self._now(run))

    def curve(self, run: Simulation, title: str, crowd: str, seed: int) -> Curve:
        """The curve at the end of a simulation."""
        self.end(run.meetings, self._now(run))
        out = Curve(
            title=title,
            crowd=crowd,
            seed=str(seed),
            agents=run.agents,
            meetings=run.meetings,
            last_change=run.last_change,
            since=run.since,
            terminal=run.is_terminal,
            source="simulated",
        )
        return filled(out, self.times, self.crowds, self.outputs)


def filled(curve: Curve, times: list[int], crowds: Sequence[dict[str, int]], outputs: dict[str, bool]) -> Curve:
    """A curve with rows for all names that occur."""
    curve.names = sorted(outputs)
    curve.outputs = [outputs[name] for name in curve.names]
    curve.times = times
    curve.rows = [[crowd.get(name, 0) for name in curve.names] for crowd in crowds]
    return curve


def read_trace(text: str, name: str) -> Curve:
    """The curve of a trace; InputFault where it is none."""
    lines = text.splitlines()
    try:
        about = read_json(lines[0].removeprefix(MARK))
        curve = Curve(**about)
        for line in lines[2:]:
            cells = line.split(",")
            if curve.unit:
                curve.moments.append(float(cells.pop(1)))
            time, *row = map(int, cells)
            if len(row) != len(curve.names):
                raise ValueError
            curve.times.append(time)
            curve.rows.append(row)
        if not curve.rows or len(curve.outputs) != len(curve.names) or curve.agents < 2:
            raise ValueError
    except (ValueError, TypeError, IndexError):
        raise InputFault(f"{name}: this is no whole trace, as `bin/pop simulate --trace FILE` writes it") from None
    return curve
