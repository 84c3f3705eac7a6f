"""Groups of a sweep's jobs: a net at one size, its runs, and whether more of them would tell more."""
from __future__ import annotations

from dataclasses import dataclass
from typing import Iterator, Sequence

from .sharing import Gathered
from .sweepjobs import Job, Result
from .table import Row, row_of

GIVE_UP = 3  # runs of one size of which none came to its end: the others won't either


@dataclass(frozen=True, kw_only=True)
class Group:
    """A net at one size, and its jobs. `value` is the predicate's, None without one; `gives_up` says whether the jobs
    have the usual limit alone."""

    net: str
    crowd: str
    agents: int
    value: bool | None
    gives_up: bool
    jobs: list[Job]

    def results(self, gathered: Gathered) -> list[Result]:
        """What came of its jobs so far."""
        return [gathered.found[name] for name in map(Job.text, self.jobs) if name in gathered.found]

    def is_given_up(self, gathered: Gathered) -> bool:
        """Whether none of the first runs came to its end."""
        results = self.results(gathered) if self.gives_up else []
        return len(results) >= GIVE_UP and all(result.end is None for result in results)

    def missing(self, gathered: Gathered) -> list[Job]:
        """Its jobs without a result, unless they are given up."""
        return [] if self.is_given_up(gathered) else gathered.missing(self.jobs)

    def row(self, gathered: Gathered) -> Row | None:
        """The row of its results, if there are any."""
        results = self.results(gathered)
        return row_of(self.net, self.crowd, results) if results else None


def in_turn(groups: Sequence[Group], gathered: Gathered) -> Iterator[Job]:
    """The jobs one after the other, while each group goes on."""
    for group in groups:
        for job in gathered.missing(group.jobs):
            if not group.is_given_up(gathered):
                yield job


def first_jobs(groups: Sequence[Group]) -> list[Job]:
    """The jobs that tell whether a group is given up."""
    return [job for group in groups if group.gives_up for job in group.jobs[:GIVE_UP]]


def one_sided(groups: Sequence[Group]) -> list[str]:
    """A sentence for each net whose inputs, two at least, have one value of the predicate."""
    out = []
    for net in dict.fromkeys(group.net for group in groups):
        values = [group.value for group in groups if group.net == net]
        if len(values) > 1 and len(set(values)) == 1 and values[0] is not None:
            value = "true" if values[0] else "false"
            out.append(f"{net}: the predicate is {value} for all these inputs; on its other side it may take longer")
    return out


def given_up(groups: Sequence[Group], gathered: Gathered) -> list[str]:
    """A sentence for each size that was given up."""
    out = []
    for group in groups:
        results = group.results(gathered)
        if len(results) < len(group.jobs) and group.is_given_up(gathered):
            out.append(
                f"{group.net}: {group.crowd}: given up after {len(results)} of {len(group.jobs)} runs, as none came to"
                " its end; `--changes N` or `--until T` makes them all"
            )
    return out
