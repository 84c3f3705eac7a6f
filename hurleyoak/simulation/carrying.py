"""Carries a simulation out: by batches where they are faster, and else meeting by meeting."""
from __future__ import annotations

from dataclasses import dataclass
from importlib.util import find_spec
from typing import Callable, Protocol, Sequence

from .simulation import AGREED, BURST, CHANGE_LIMIT, CHANGES, ENDLESS, SETTLED, TERMINAL, Simulation, Stop

LEAST_AGENTS = 2_000  # with fewer agents a batch is too short to pay
CHANGES_AN_AGENT = 10  # where no limit is given, a large crowd may change so often for each agent


@dataclass(frozen=True)
class Limits:
    """Where a simulation stops: at `until` (terminal, agreed, settled, meetings), or after so many meetings or
    changes."""

    until: Stop = TERMINAL
    meetings: int = ENDLESS
    changes: int | None = None

    def most_changes(self, agents: int) -> int:
        """After how many changes it stops; with the crowd where no limit was given."""
        return max(CHANGE_LIMIT, CHANGES_AN_AGENT * agents) if self.changes is None else self.changes


class Bursts(Protocol):
    """What goes on by many meetings at once; false where it did not go on."""

    def burst(self, changes: int, meetings: int, agreed: Sequence[int], on_change: Callable[[], None] | None) -> bool:
        ...


def batches_of(run: Simulation) -> Bursts | None:
    """What draws batches for a crowd; none for a small one, for too many words, or without numpy."""
    if not run.by_counts or run.agents < LEAST_AGENTS or find_spec("numpy") is None:
        return None
    from .batches import Batcher

    batcher = Batcher(run)
    return batcher if batcher.ready else None


def carry_out(
    run: Simulation,
    limits: Limits,
    value: bool | None,
    on_change: Callable[[], None] | None = None,
    each_burst: Callable[[], None] | None = None,
) -> None:
    """Runs to the first limit, and says in `ended` which. Agreed means on the predicate's value, where it is known."""
    agreed: tuple[int, ...] = ()
    if limits.until == SETTLED or limits.until == AGREED and value is None:
        agreed = (0, run.agents)
    elif limits.until == AGREED:
        agreed = (run.agents if value else 0,)
    go_on(run, batches_of(run), limits, agreed, on_change, each_burst)


def go_on(
    run: Simulation,
    batches: Bursts | None,
    limits: Limits,
    agreed: tuple[int, ...],
    on_change: Callable[[], None] | None = None,
    each_burst: Callable[[], None] | None = None,
) -> None:
    """Runs to the first limit, or until so many agents output true as `agreed` has; says in `ended` which."""
    most = limits.most_changes(run.agents)
    while not run.ended and run.changes < most:
        left = most - run.changes
        if limits.until == SETTLED and run.output is not None:
            _look(run, limits.meetings, on_change)
            continue
        if batches is None or not batches.burst(left, limits.meetings, agreed, on_change):
            run.burst(min(BURST, left), limits.meetings, agreed, on_change)
        if each_burst:
            each_burst()
        if limits.until == SETTLED and run.ended == AGREED:
            run.ended = None
    if not run.ended:
        run.ended = AGREED if run.yes in agreed else TERMINAL if run.is_terminal else CHANGES


def _look(run: Simulation, meetings: int, on_change: Callable[[], None] | None) -> None:
    """Ends the run where its outputs stay, and else goes on by one change."""
    if run.is_settled:
        run.ended = TERMINAL if run.is_terminal else SETTLED
    else:
        run.burst(1, meetings, (), on_change)
