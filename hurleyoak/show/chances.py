"""What is said of a small crowd's chain, and of the worst inputs by size."""
from __future__ import annotations

from fractions import Fraction
from math import hypot, isfinite, sqrt
from typing import Sequence

from ..chain.answers import After, Answer, Chances, Crowd, Number
from ..chain.worst import Worst
from ..simulation.growth import growth_told
from ..simulation.timeline import Pace

LAST = "computed of the chain, and not proved"
WORDS: tuple[tuple[bool | None, str], ...] = ((True, "true"), (False, "false"), (None, "mixed"))


def number_text(value: Number) -> str:
    """A number in six digits; behind a fraction what it is about."""
    if isinstance(value, Fraction):
        return str(value) if value.denominator == 1 else f"{value} (about {rounded(value)})"
    return rounded(value)


def rounded(value: Number) -> str:
    """A number in six digits."""
    try:
        return f"{float(value):.6g}"
    except OverflowError:
        return "over 1e308"


def crowd_text(crowd: Crowd) -> str:
    """A crowd on one line, as in `A 1 a 8`."""
    return " ".join(f"{name} {k}" for name, k in crowd.items())


def _outputs(chances: Chances) -> str:
    return ", ".join(f"{word} {number_text(chances[value])}" for value, word in WORDS if chances[value])


def told(answer: Answer, value: bool | None, shown: int) -> list[str]:
    """The lines on one input; `value` is the predicate's, where there is one."""
    lines = [f"{answer.crowds:,} crowds come up from {answer.agents} agents, with {answer.steps:,} steps between them"]
    for end in answer.ends[:shown]:
        what = f"end {crowd_text(end.crowd)}"
        if end.size > 1:
            what = f"closed class of {end.size:,} crowds, one of them {crowd_text(end.crowd)}"
        output = "mixed" if end.output is None else str(end.output).lower()
        lines.append(f"{what}: chance {number_text(end.chance)}, output {output}")
    rest = answer.ends[shown:]
    if rest:
        lines.append(f"{len(rest):,} other ends: chance {number_text(sum((e.chance for e in rest), Fraction(0)))}")
    lines.append(f"output at the end: {_outputs(answer.outputs)}")
    if value is not None:
        lines.append(f"predicate {str(value).lower()}: right with chance {number_text(answer.outputs[value])}")
    lines += [*_times(answer), *(_after(answer.after, shown) if answer.after else []), LAST]
    return lines


def _times(answer: Answer) -> list[str]:
    """How many meetings it takes."""
    figures = f"mean {number_text(answer.mean)}, deviation {rounded(answer.deviation)}"
    if not isfinite(answer.mean):
        figures = "the mean is finite, and over 1e308"
    elif answer.variance is not None:
        figures += f", variance {number_text(answer.variance)}"
    figures += f"; {rounded(answer.mean / answer.agents)} for each of {answer.agents} agents"
    if answer.is_mixed:
        return [
            f"meetings to a terminal crowd: no mean, as one is reached with chance {number_text(answer.terminal)} only",
            f"meetings to a terminal crowd or a closed class: {figures}",
        ]
    return [f"meetings to {'the end' if answer.terminal else 'a closed class'}: {figures}"]


def time_of(answer: Answer, pace: Pace) -> tuple[float, float]:
    """The mean and the deviation of the time to an end; where it is drawn, each meeting adds its own."""
    rate, mean = float(pace.at(answer.agents)), float(answer.mean)
    own = sqrt(mean) if pace.volume is not None else 0.0
    return mean / rate, hypot(answer.deviation, own) / rate


def time_told(answer: Answer, pace: Pace) -> str:
    """The same in a network's own time, in which meetings come by exponential gaps of one rate."""
    mean, deviation = time_of(answer, pace)
    what = "the end" if answer.terminal and not answer.is_mixed else "a closed class"
    return f"time to {what}: mean {rounded(mean)}, deviation {rounded(deviation)}; {pace.told(answer.agents)}"


def _after(after: After, shown: int) -> list[str]:
    """The distribution after some meetings."""
    lines = [
        f"after {after.meetings:,} meetings: at an end with chance {number_text(after.ended)};"
        f" output {_outputs(after.outputs)}"
    ]
    lines += [f"  {crowd_text(crowd)}: chance {number_text(chance)}" for crowd, chance in after.crowds[:shown]]
    rest = after.crowds[shown:]
    if rest:
        chance = sum((one for _, one in rest), Fraction(0))
        lines.append(f"  {len(rest):,} other crowds: chance {number_text(chance)}")
    return lines


def table_told(rows: Sequence[Worst], names: Sequence[str], name: str) -> list[str]:
    """The table of the worst inputs, and how their means grow."""
    cells = [["n", "inputs", "crowds", "mean", "deviation", "slowest", "right", "weakest"]]
    for row in rows:
        right = "-" if row.right is None else rounded(row.right)
        mean = number_text(row.mean) if isfinite(row.mean) else "none"
        deviation = rounded(row.deviation) if isfinite(row.mean) else "none"
        cells.append(
            [f"{k:,}" for k in (row.agents, row.inputs, row.crowds)]
            + [
                mean,
                deviation,
                _input(names, row.slowest),
                right,
                _input(names, None if right == "1" else row.weakest),
            ]
        )
    widths = [max(len(line[at]) for line in cells) for at in range(len(cells[0]))]
    lines = [
        "  ".join(
            part.ljust(width) if at in (5, 7) else part.rjust(width)
            for at, (part, width) in enumerate(zip(line, widths))
        ).rstrip()
        for line in cells
    ]
    known = [(float(row.agents), float(row.mean)) for row in rows if row.mean and isfinite(row.mean)]
    sizes, means = [size for size, _ in known], [mean for _, mean in known]
    return [*lines, "", growth_told(f"{name}: mean of the slowest input", sizes, means, "mean"), LAST]


def _input(names: Sequence[str], counts: Sequence[int] | None) -> str:
    return "-" if counts is None else ",".join(f"{name}={k}" for name, k in zip(names, counts) if k)
