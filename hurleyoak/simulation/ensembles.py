"""Many runs of one crowd on one grid of times: the single runs, and of each time the mean with a band of quantiles."""
from __future__ import annotations

import csv
import io
import json
from dataclasses import dataclass, field
from statistics import fmean, pstdev
from typing import Callable, Sequence

from ..faults import AskFault, InputFault
from ..protocol.nets import Net
from ..protocol.reactions import Reactions
from ..text.jsontext import read_json
from .carrying import Limits, batches_of, go_on
from .crowds import crowd_words
from .growth import quantile
from .kernelled import KernelPaths, KernelRun
from .manyruns import shared
from .placing import Placing
from .seeds import seed_of
from .simulation import ENDLESS, MEETINGS, TERMINAL, Simulation
from .timeline import BY_AGENT, PER_AGENT, ROUNDS, Grid, Pace

MARK = "# ensemble "
TIMES_LIMIT = 5_000  # of a grid
LOW, MIDDLE, HIGH = 0.1, 0.5, 0.9  # the quantiles of a band
STATES_TOLD = 12


@dataclass
class Path:
    """One run: its crowds at the times of the grid, as far as it went; later they stay as they are."""

    rows: list[dict[str, int]] = field(default_factory=list)
    last_change: int = 0
    output: bool | None = None
    is_terminal: bool = False


@dataclass
class Ensemble:
    """Runs on one grid; `rows[i][k]` are the counts by name of run i after `k * every` meetings for each agent."""

    title: str
    crowd: str
    seed: str
    agents: int
    every: float
    unit: str = PER_AGENT
    names: list[str] = field(default_factory=list)
    outputs: list[bool] = field(default_factory=list)
    last_changes: list[int] = field(default_factory=list)
    ends: list[bool | None] = field(default_factory=list)
    terminal: int = 0
    told: str = Simulation.told
    rows: list[list[list[int]]] = field(default_factory=list)

    @property
    def times(self) -> list[float]:
        """The times of the grid."""
        return [k * self.every for k in range(len(self.rows[0]))]

    def text(self) -> str:
        """A line of JSON behind `# ensemble`, then comma-separated values: a line for each run and time."""
        out = io.StringIO()
        out.write(MARK + json.dumps({k: v for k, v in vars(self).items() if k != "rows"}) + "\n")
        writer = csv.writer(out, lineterminator="\n")
        writer.writerow(["run", "time", *self.names])
        for run, rows in enumerate(self.rows):
            writer.writerows([run, f"{time:.10g}", *row] for time, row in zip(self.times, rows))
        return out.getvalue()

    def bands(self, at: Sequence[int]) -> list[tuple[float, float, float]]:
        """Of the agents in some of the states: the mean, and the low and the high quantile, at each time."""
        out = []
        for k in range(len(self.rows[0])):
            values = sorted(float(sum(rows[k][i] for i in at)) for rows in self.rows)
            out.append((sum(values) / len(values), quantile(values, LOW), quantile(values, HIGH)))
        return out


def _path(run: Simulation, grid: Grid, meetings: int, outputs: dict[str, bool]) -> Path:
    """A run with its crowds at the grid's times."""
    path, batches = Path(), batches_of(run)
    while True:
        crowd = run.crowd()
        outputs.update((run.reactions.name(word), run.reactions.output(word)) for word in crowd)
        path.rows.append({run.reactions.name(word): k for word, k in crowd.items()})
        if len(path.rows) > TIMES_LIMIT:
            raise AskFault(f"a run has over {TIMES_LIMIT:,} times of the grid: a greater `--every` gives fewer")
        if run.ended == TERMINAL or run.meetings >= meetings:
            path.last_change, path.output, path.is_terminal = run.last_change, run.output, run.is_terminal
            return path
        run.ended = None
        goal = min(meetings, grid.meetings(len(path.rows)))
        go_on(run, batches, Limits(MEETINGS, goal, ENDLESS), ())


def _kernel_path(paths: KernelPaths, grid: Grid, meetings: int, seed: int) -> Path:
    """The same by the kernel."""
    states = paths.run(seed, meetings, grid.meetings, TIMES_LIMIT)
    last = states[-1]
    rows = [dict(zip(paths.names, state.counts)) for state in states]
    return Path(rows, last.last_change, paths.output(last), last.is_terminal)


def ensemble(
    net: Net,
    counts: tuple[int, ...],
    seed: int,
    runs: int,
    every: float,
    meetings: int,
    title: str,
    each: Callable[[int], None] = lambda done: None,
    pace: Pace = BY_AGENT,
    jobs: int = 1,
    placing: Placing | None = None,
    by_kernel: bool = False,
) -> Ensemble:
    """So many runs; each has a seed of its own, made of the crowd, the seed and its number. They are shared among so
    many processes."""
    crowd = crowd_words(net, counts)
    start = Reactions(net).start(counts)
    agents = sum(start.values())

    paths_of = KernelPaths(net, start) if by_kernel else None

    def one(number: int) -> tuple[Path, dict[str, bool]]:
        stream, known = seed_of("ensemble", crowd, str(seed), str(number)), dict[str, bool]()
        if paths_of:
            return _kernel_path(paths_of, Grid(pace, agents, every, stream), meetings, stream), paths_of.outputs
        run = placing.make(net, start, stream) if placing else Simulation(net, counts, stream)
        return _path(run, Grid(pace, agents, every, stream), meetings, known), known

    outputs: dict[str, bool] = {}
    paths = []
    for path, known in shared(one, runs, jobs):
        outputs.update(known)
        paths.append(path)
        each(len(paths))
    names = sorted(outputs)
    out = Ensemble(title, crowd, str(seed), agents, every, pace.unit, names, [outputs[name] for name in names])
    out.last_changes = [path.last_change for path in paths]
    out.ends = [path.output for path in paths]
    out.told = KernelRun.told if by_kernel else out.told
    out.terminal = sum(path.is_terminal for path in paths)
    length = max(len(path.rows) for path in paths)
    for path in paths:
        rows = [[row.get(name, 0) for name in names] for row in path.rows]
        out.rows.append(rows + [rows[-1]] * (length - len(rows)))
    return out


def read_ensemble(text: str, name: str) -> Ensemble:
    """What `simulate --every` wrote; InputFault where it is none."""
    first, _, rest = text.partition("\n")
    try:
        out = Ensemble(**read_json(first.removeprefix(MARK)))
        for run, _, *counts in list(csv.reader(io.StringIO(rest)))[1:]:
            if int(run) == len(out.rows):
                out.rows.append([])
            if int(run) != len(out.rows) - 1 or len(counts) != len(out.names):
                raise ValueError
            out.rows[-1].append([int(k) for k in counts])
        if len({len(rows) for rows in out.rows}) != 1 or not out.names or out.agents < 2 or not out.every > 0:
            raise ValueError
    except (ValueError, TypeError, csv.Error):
        raise InputFault(f"{name}: this is no whole ensemble, as `bin/pop simulate --every` writes it") from None
    return out


def _counts_told(made: Ensemble) -> list[str]:
    """Of the states of most agents at the last time: the mean, the deviation and the quantiles of the runs."""
    rows = [rows[-1] for rows in made.rows]
    most = sorted(range(len(made.names)), key=lambda at: -sum(row[at] for row in rows))[:STATES_TOLD]
    head = ["at the end", "mean", "deviation", *(f"{part:.0%}" for part in (LOW, MIDDLE, HIGH))]
    cells = [head]
    for at in sorted(most):
        values = sorted(float(row[at]) for row in rows)
        parts = [quantile(values, part) for part in (LOW, MIDDLE, HIGH)]
        cells.append([made.names[at], *(f"{part:.6g}" for part in (fmean(values), pstdev(values), *parts))])
    widths = [max(len(line[at]) for line in cells) for at in range(len(head))]
    return [
        "  ".join([line[0].ljust(widths[0]), *(part.rjust(width) for part, width in zip(line[1:], widths[1:]))])
        for line in cells
    ]


def told(made: Ensemble, value: bool | None) -> list[str]:
    """What is said of the runs."""
    runs, agents = len(made.rows), made.agents
    per, unit = (1, ROUNDS) if made.unit == ROUNDS else (agents, "meetings for each agent")
    last = sorted(float(k) / per for k in made.last_changes)
    said = {
        word: sum(end is kind for end in made.ends)
        for word, kind in (("true", True), ("false", False), ("mixed", None))
    }
    lines = [
        f"runs {runs}, each of {agents} agents; {made.terminal} came to a terminal crowd",
        (
            f"last change after {quantile(last, 0.5):.4g} {unit} in the median, "
            f"{quantile(last, LOW):.4g} to {quantile(last, HIGH):.4g} in eight of ten"
        ),
        "output " + ", ".join(f"{word} in {k}" for word, k in said.items() if k),
    ]
    lines += _counts_told(made)
    if value is not None:
        right = said[str(value).lower()]
        lines.append(f"predicate {str(value).lower()}: {right} of {runs} agree")
    return [*lines, f"{made.told}, and not proved"]
