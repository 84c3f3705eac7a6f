"""A graph with its agents' states at some times, written and read: a line for each agent, a column for each time."""
from __future__ import annotations

import csv
import io
import json
from dataclasses import dataclass, field

from ..faults import InputFault
from ..text.jsontext import read_json
from .graphs import Edge, Graph, Place
from .placed import Placed

MARK = "# map "
HEAD = ("agent", "x", "y")


@dataclass
class Map:
    """The graph with the states at each of `times`; `rows[agent][time]` is a state's name, empty where the agent is
    gone."""

    title: str
    graph: str
    unit: str
    width: int
    outputs: dict[str, bool]
    edges: list[Edge]
    times: list[float] = field(default_factory=list)
    agents: list[str] = field(default_factory=list)
    places: list[Place] = field(default_factory=list)
    rows: list[list[str]] = field(default_factory=list)

    def text(self) -> str:
        """A line of JSON behind `# map`, then comma-separated values."""
        out = io.StringIO()
        kept = ("title", "graph", "unit", "width", "outputs", "edges")
        out.write(MARK + json.dumps({name: vars(self)[name] for name in kept}) + "\n")
        writer = csv.writer(out, lineterminator="\n")
        writer.writerow([*HEAD, *(f"{time:.10g}" for time in self.times)])
        for name, (x, y), row in zip(self.agents, self.places, self.rows):
            writer.writerow([name, f"{x:.6g}", f"{y:.6g}", *row])
        return out.getvalue()


class Keeper:
    """Keeps the states of a run: at the start, and at the first change after one meeting for each agent, after two,
    four and so on."""

    def __init__(self, run: Placed, unit: int) -> None:
        self.run, self.next = run, unit
        self.shots = [(run.meetings, run.states[:])]

    def note(self) -> None:
        """Called after each change."""
        if self.run.meetings >= self.next:
            self.next = 2 * self.run.meetings
            self.shots.append((self.run.meetings, self.run.states[:]))

    def end(self) -> list[int]:
        """Keeps the end; the numbers of the meetings at which something is kept."""
        if self.shots[-1][0] < self.run.meetings:
            self.shots.append((self.run.meetings, self.run.states[:]))
        return [meetings for meetings, _ in self.shots]

    def map(self, title: str, graph: Graph, unit: str, times: list[float]) -> Map:
        """All of it, where the times of what is kept are known."""
        run = self.run
        names = [run.reactions.name(word) for word in run.words]
        outputs = dict(sorted(zip(names, run.says)))
        rows = [["" if at < 0 else names[at] for at in row] for row in zip(*(states for _, states in self.shots))]
        agents = list(graph.names) or [str(at) for at in range(len(rows))]
        made = Map(title, graph.text, unit, graph.width, outputs, list(graph.edges), times, agents)
        made.places, made.rows = graph.places(), rows
        return made


def read_map(text: str, name: str) -> Map:
    """What `simulate --map` wrote; InputFault where it is none."""
    first, _, rest = text.partition("\n")
    try:
        made = Map(**read_json(first.removeprefix(MARK)))
        head, *lines = list(csv.reader(io.StringIO(rest)))
        made.times = [float(time) for time in head[len(HEAD) :]]
        for agent, x, y, *row in lines:
            made.agents.append(agent)
            made.places.append((float(x), float(y)))
            made.rows.append(row)
        made.edges = [(int(u), int(v)) for u, v in made.edges]
        known = {"", *made.outputs}
        if not made.rows or not made.times or any(len(row) != len(made.times) for row in made.rows):
            raise ValueError
        if not all(0 <= at < len(made.rows) for edge in made.edges for at in edge):
            raise ValueError
        if not all(state in known for row in made.rows for state in row):
            raise ValueError
    except (ValueError, TypeError, IndexError, AttributeError, csv.Error):
        raise InputFault(f"{name}: this is no whole map, as `bin/pop simulate --map FILE` writes it") from None
    return made
