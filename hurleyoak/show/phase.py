"""Phase portraits: the agents in one state against those in another, of runs and of the mean field."""
from __future__ import annotations

from dataclasses import dataclass
from enum import Enum
from typing import Any, Iterator, Sequence

from ..faults import InputFault
from ..simulation.curves import Curve
from ..simulation.ensembles import Ensemble
from ..simulation.events import Crowd
from ..simulation.meanfield import Course
from ..protocol.reactions import Word
from .look import COLOURS
from .pictures import framed

FAN = 5  # steps from no agent to all, of the starts in a portrait of the mean field
ARROW_AT = 0.25  # of a trail's points, where its arrow is
RUNS_SHOWN = 40
SQUARE = (5.6, 5.2)  # inches


class Kind(Enum):
    """What a trail is of."""

    RUN = "a run"
    MEAN = "the mean of the runs"
    FIELD = "the mean field"


@dataclass(frozen=True)
class Trail:
    """Two counts over time."""

    xs: Sequence[float]
    ys: Sequence[float]
    kind: Kind


LOOKS: dict[Kind, dict[str, Any]] = {
    Kind.RUN: {"color": COLOURS[0], "linewidth": 0.7, "alpha": 0.7},
    Kind.MEAN: {"color": COLOURS[1], "linewidth": 2.0},
    Kind.FIELD: {"color": COLOURS[6], "linewidth": 1.1, "linestyle": (0, (4, 1.5))},
}


def _column(names: Sequence[str], rows: Sequence[Sequence[float]], name: str) -> list[float]:
    at = names.index(name) if name in names else None
    return [0.0 if at is None else row[at] for row in rows]


def _trail(names: Sequence[str], rows: Sequence[Sequence[float]], both: tuple[str, str], kind: Kind) -> Trail:
    return Trail(_column(names, rows, both[0]), _column(names, rows, both[1]), kind)


def of_curve(curve: Curve, both: tuple[str, str]) -> list[Trail]:
    """The trail of a run."""
    return [_trail(curve.names, curve.rows, both, Kind.RUN)]


def of_many(made: Ensemble, both: tuple[str, str]) -> list[Trail]:
    """The trails of some runs, and of the mean of all."""
    single = [_trail(made.names, rows, both, Kind.RUN) for rows in made.rows[:RUNS_SHOWN]]
    means = [[sum(parts) / len(made.rows) for parts in zip(*now)] for now in zip(*made.rows)]
    return [*single, _trail(made.names, means, both, Kind.MEAN)]


def of_course(made: Course, both: tuple[str, str]) -> list[Trail]:
    """The trail of the mean field."""
    return [Trail(made.of(both[0]), made.of(both[1]), Kind.FIELD)]


def fan(words: Sequence[Word], both: tuple[Word, Word], agents: int) -> Iterator[Crowd]:
    """Starts of a portrait: agents in the two states in steps, the others shared equally among the other states."""
    rest = [word for word in words if word not in both]
    for i in range(FAN + 1):
        for j in range(FAN + 1 - i):
            left = agents - (i * agents // FAN + j * agents // FAN)
            if left and not rest:
                continue
            crowd = {both[0]: i * agents // FAN, both[1]: j * agents // FAN}
            for at, word in enumerate(rest):
                crowd[word] = left // len(rest) + (at < left % len(rest))
            yield {word: k for word, k in crowd.items() if k}


def draw_phase(trails: Sequence[Trail], both: tuple[str, str], title: str) -> Any:
    """All trails, each with an arrow on its way, and the ends of the runs."""
    if not any(max(trail.xs, default=0) or max(trail.ys, default=0) for trail in trails):
        raise InputFault(f"no agent is ever in `{both[0]}` or `{both[1]}`")
    kinds = list(dict.fromkeys(trail.kind for trail in trails))
    figure, axes = framed(title, "; ".join(kind.value for kind in kinds), SQUARE)
    for number, trail in enumerate(trails):
        look = LOOKS[trail.kind]
        label = trail.kind.value if trail.kind not in {one.kind for one in trails[:number]} else None
        axes.plot(trail.xs, trail.ys, gid=f"trail{number}", label=label, **look)
        _arrow(axes, trail)
        if trail.kind is Kind.RUN:
            axes.plot(trail.xs[-1:], trail.ys[-1:], "o", color=look["color"], markersize=3)
    most = max(max(max(trail.xs), max(trail.ys)) for trail in trails)
    axes.set_xlim(-0.02 * most, 1.03 * most)
    axes.set_ylim(-0.02 * most, 1.03 * most)
    axes.set_xlabel(f"agents in {both[0]}", fontsize=9)
    axes.set_ylabel(f"agents in {both[1]}", fontsize=9)
    axes.legend(fontsize=8.5, frameon=False, loc="upper right")
    figure.subplots_adjust(left=0.14, right=0.96, top=0.86, bottom=0.11)
    return figure


def _arrow(axes: Any, trail: Trail) -> None:
    """An arrow where the first part of the way has gone by, by its length."""
    if trail.kind is Kind.RUN:
        return
    ways = [0.0]
    for at in range(1, len(trail.xs)):
        ways.append(ways[-1] + abs(trail.xs[at] - trail.xs[at - 1]) + abs(trail.ys[at] - trail.ys[at - 1]))
    if not ways[-1]:
        return
    at = next(i for i, way in enumerate(ways) if way >= ARROW_AT * ways[-1])
    begin = max(0, at - 1)
    axes.annotate(
        "",
        (trail.xs[at], trail.ys[at]),
        (trail.xs[begin], trail.ys[begin]),
        arrowprops={"arrowstyle": "-|>", "color": LOOKS[trail.kind]["color"]},
    )
