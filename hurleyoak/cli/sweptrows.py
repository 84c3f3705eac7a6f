"""The rows of a sweep as they come: each is printed when its runs are done, in the order that was asked for."""
from __future__ import annotations

from typing import Callable, Sequence

from ..simulation.groups import Group
from ..simulation.sharing import Gathered
from ..simulation.table import Row, Runs


class SweptRows:
    """Prints the first part of the table line by line."""

    def __init__(self, groups: Sequence[Group], gathered: Gathered) -> None:
        self.groups, self.gathered = groups, gathered
        self.runs = Runs([(group.net, group.crowd, group.agents, len(group.jobs)) for group in groups])
        self.rows: list[Row] = []
        self.next = 0

    def print(self, first: Callable[[], None]) -> None:
        """Prints the rows that are complete; before a line `first` makes room for it."""
        while self.next < len(self.groups) and not self.groups[self.next].missing(self.gathered):
            first()
            self._print_next()

    def finish(self) -> list[Row]:
        """Prints what is left, as far as there are results; gives all rows."""
        while self.next < len(self.groups):
            self._print_next()
        return self.rows

    def _print_next(self) -> None:
        row = self.groups[self.next].row(self.gathered)
        self.next += 1
        if row is not None:
            print("\n".join([*([] if self.rows else self.runs.head), self.runs.line(row)]), flush=True)
            self.rows.append(row)
