"""A sweep as a table: the figures that the command prints, a row for each size."""
from __future__ import annotations

from typing import Any, Callable, Iterable, Sequence

from ..simulation.sweepjobs import Result
from ..simulation.table import Row, aligned, growths, row_of
from .asked import Size
from .results import Run, Table


def _result(run: Run) -> Result:
    """The run as the table counts it."""
    if not run.terminal:
        return Result("", run.agents, run.meetings, None, None, None)
    return Result("", run.agents, run.meetings, run.last_change, run.agreed, run.right)


def swept(
    name: str, sizes: Iterable[Size], crowds: Sequence[str], runs: int, make: Callable[[Size, int], Run]
) -> Table:
    """So many runs of each size, whose crowds are said in words. `wrong` counts runs, `interval` has its share."""
    rows: list[Row] = []
    values: list[dict[str, Any]] = []
    for counts, crowd in zip(sizes, crowds):
        row = row_of(name, crowd, [_result(make(counts, at)) for at in range(runs)])
        rows.append(row)
        wrong = None if row.wrong is None else round(row.wrong * runs)
        about = {"agents": row.n, "runs": runs, "ended": runs - round(row.undecided * runs), "wrong": wrong}
        values.append({**counts, **about, "interval": row.interval, **row.figures})
    text = "\n".join([aligned(rows), "", *growths(rows)]) if rows else "no runs"
    return Table(values, text=text)
