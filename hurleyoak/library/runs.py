"""A simulation at its end as a value."""
from __future__ import annotations

from ..simulation.curves import Curve
from ..simulation.simulation import Simulation
from .results import Run


def run_of(run: Simulation, curve: Curve, value: bool | None) -> Run:
    """The crowd at the end, why it stopped, and its curve; `value` is the predicate's."""
    return Run(
        crowd={run.reactions.name(word): k for word, k in run.crowd().items()},
        agents=run.agents,
        meetings=run.meetings,
        changes=run.changes,
        last_change=run.last_change,
        agreed=run.since,
        output=run.output,
        terminal=run.is_terminal,
        ended=str(run.ended),
        right=None if value is None else run.output == value,
        times=curve.places,
        curves={name: [row[i] for row in curve.rows] for i, name in enumerate(curve.names)},
    )
