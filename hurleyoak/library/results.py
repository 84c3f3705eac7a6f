"""What the calls of the library give: verdicts, counterexamples, runs and tables, shown well in a notebook."""
from __future__ import annotations

from dataclasses import dataclass, field
from html import escape
from statistics import pstdev
from typing import TYPE_CHECKING, Any, Iterator

from ..faults import InputFault
from ..simulation.ensembles import HIGH, LOW, MIDDLE
from ..simulation.growth import quantile
from .asked import frames

if TYPE_CHECKING:
    from pandas import DataFrame

    from .protocols import Protocol


@dataclass(frozen=True)
class Verdict:
    """The program's line on a bundle, which is true where it is certified or stable. `stable` says that outputs come
    to rest while agents may go on changing. `bound` is the number behind the word: steps for each agent. `tame` says
    that random meetings come to the end in cubic time."""

    line: str
    certified: bool
    bound: int | None
    stable: bool = False
    tame: bool = False

    def meetings(self, agents: int) -> int | None:
        """How many random meetings of so many agents, helpers among them, lead to the end on average at most: proved.
        None where nothing is proved of it."""
        return self.bound * agents * agents * (agents - 1) // 2 if self.tame and self.bound is not None else None

    def __repr__(self) -> str:
        return self.line

    def __bool__(self) -> bool:
        return self.certified or self.stable


@dataclass(frozen=True)
class Refuted:
    """An input for which the protocol goes wrong: the counts of the variables, and what is said of it."""

    counts: dict[str, int]
    told: str

    def __repr__(self) -> str:
        return self.told


@dataclass(frozen=True)
class Found:
    """What came of `find`: a certified protocol with its proof, or a counterexample, or neither; `told` says what."""

    protocol: Protocol | None
    verdict: Verdict | None
    refuted: Refuted | None
    told: str

    def __repr__(self) -> str:
        return self.told

    def __bool__(self) -> bool:
        return self.protocol is not None


@dataclass(frozen=True, kw_only=True)
class Run:
    """A simulated run. `crowd` has the number of agents for each state at the end; `agreed` is the meeting since which
    all output the same. `ended` says why it stopped: terminal, agreed, settled (no output can change any more),
    meetings or changes (the limit of these)."""

    crowd: dict[str, int]
    agents: int
    meetings: int
    changes: int
    last_change: int
    agreed: int | None
    output: bool | None
    terminal: bool
    ended: str
    right: bool | None
    times: list[float] = field(repr=False, default_factory=list)
    curves: dict[str, list[int]] = field(repr=False, default_factory=dict)

    @property
    def parallel_time(self) -> float:
        """Meetings for each agent."""
        return self.meetings / self.agents

    def frame(self) -> DataFrame:
        """The curve as a table of pandas: a row for each time (meetings for each agent), a column for each state."""
        return frames()(self.curves, index=self.times)

    def _repr_html_(self) -> str:
        rows = "".join(f"<tr><td>{escape(name)}</td><td>{count:,}</td></tr>" for name, count in self.crowd.items())
        end = "terminal" if self.terminal else f"not terminal, ended by {self.ended}"
        return (
            f"<table><tr><th>state</th><th>agents</th></tr>{rows}</table>"
            f"<p>{self.meetings:,} meetings, {self.parallel_time:.4g} for each agent; {end}; measured, not proved</p>"
        )


@dataclass(frozen=True)
class Runs:
    """Many runs of one crowd on one grid of times. `counts[state][run][time]` are agents; a run that has ended stays
    as it is."""

    times: list[float]
    counts: dict[str, list[list[int]]] = field(repr=False)
    agents: int
    terminal: int

    def __len__(self) -> int:
        return len(next(iter(self.counts.values())))

    def mean(self, state: str) -> list[float]:
        """The mean number of agents in a state at each time."""
        return [sum(now) / len(now) for now in zip(*self.counts[state])]

    def deviation(self, state: str) -> list[float]:
        """The standard deviation among the runs at each time."""
        return [pstdev(now) for now in zip(*self.counts[state])]

    def quantile(self, state: str, part: float) -> list[float]:
        """The number of agents in a state below which so great a part of the runs is, at each time."""
        if not 0 <= part <= 1:
            raise InputFault(f"a quantile is of a part from 0 to 1, found {part!r}")
        return [quantile(sorted(map(float, now)), part) for now in zip(*self.counts[state])]

    def frame(self) -> DataFrame:
        """A table of pandas: a row for each run and time, a column for each state."""
        frame = frames()
        from pandas import MultiIndex

        index = MultiIndex.from_product([range(len(self)), self.times], names=["run", "time"])
        return frame({name: [k for run in runs for k in run] for name, runs in self.counts.items()}, index=index)

    def _repr_html_(self) -> str:
        rows = ""
        for name in self.counts:
            figures = [self.mean(name)[-1], *(self.quantile(name, part)[-1] for part in (LOW, MIDDLE, HIGH))]
            rows += f"<tr><td>{escape(name)}</td>{''.join(f'<td>{figure:,.4g}</td>' for figure in figures)}</tr>"
        parts = "".join(f"<th>{part:.0%}</th>" for part in (LOW, MIDDLE, HIGH))
        return (
            f"<table><tr><th>state</th><th>mean at the end</th>{parts}</tr>{rows}</table>"
            f"<p>{len(self)} runs of {self.agents:,} agents, {self.terminal} of them ended; measured, not proved</p>"
        )


@dataclass(frozen=True)
class Table:
    """A row for each size: of runs, with the figures of `bin/pop sweep`, or of the slowest inputs. `text` is what that
    command prints, with the growth."""

    rows: list[dict[str, Any]]
    source: str = "measured, not proved"
    text: str = field(repr=False, default="")

    def __repr__(self) -> str:
        return f"{self.text}\n{self.source}" if self.text else f"Table(rows={self.rows!r}, source={self.source!r})"

    def frame(self) -> DataFrame:
        """The rows as a table of pandas."""
        return frames()(self.rows)

    def __iter__(self) -> Iterator[dict[str, Any]]:
        return iter(self.rows)

    def __len__(self) -> int:
        return len(self.rows)

    def _repr_html_(self) -> str:
        if not self.rows:
            return "<p>no runs</p>"
        head = "".join(f"<th>{escape(name)}</th>" for name in self.rows[0])
        body = "".join(
            "<tr>" + "".join(f"<td>{_cell(cell)}</td>" for cell in row.values()) + "</tr>" for row in self.rows
        )
        return f"<table><tr>{head}</tr>{body}</table><p>{self.source}</p>"


def _cell(value: object) -> str:
    """A value in a notebook."""
    if isinstance(value, tuple):
        return " to ".join(map(_cell, value))
    return f"{value:,.4g}" if isinstance(value, float) else "-" if value is None else escape(str(value))
