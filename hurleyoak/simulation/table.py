"""The table of a sweep, a line for each net and size: as aligned text, and as comma-separated values."""
from __future__ import annotations

import csv
import io
import math
from dataclasses import dataclass, field
from typing import Sequence

from ..faults import InputFault
from .growth import growth_told, quantile
from .intervals import margin, wilson
from .sweepjobs import Result

MARK = "# sweep "
PARTS = [("quarter", 0.25), ("median", 0.5), ("three quarters", 0.75), ("95%", 0.95)]
ABOUT = ["net", "crowd", "n", "runs", "undecided", "wrong"]
INTERVAL = "interval"  # of the share of wrong runs
MEAN, MARGIN = "mean", "margin"
FIGURES = [f"{what} {name}" for what in ("end", "agreed") for name in [*(name for name, _ in PARTS), MEAN, MARGIN]]
WORDS = 2  # columns at the left, which hold words
NOT_WITHIN = "not within"


@dataclass
class Row:
    """One net at one size. `undecided` and `wrong` are shares of the runs; what is not known is None.

    `wrong` is known where the runs had a predicate, and one of them at least came to its end.
    """

    net: str
    crowd: str
    n: int
    runs: int
    undecided: float
    wrong: float | None
    figures: dict[str, float | None] = field(default_factory=dict)

    @property
    def interval(self) -> tuple[float, float] | None:
        """Where the share of wrong runs lies."""
        return None if self.wrong is None else wilson(round(self.wrong * self.runs), self.runs)


def _figures(what: str, values: Sequence[int | None]) -> dict[str, float | None]:
    """Quantiles, in which a run that did not come so far counts as endless; the mean, with an interval of so much to
    either side, only where all did."""
    sorted_ = sorted(math.inf if value is None else float(value) for value in values)
    out: dict[str, float | None] = {}
    for name, part in PARTS:
        found = quantile(sorted_, part)
        out[f"{what} {name}"] = found if math.isfinite(found) else None
    all_came = math.isfinite(sorted_[-1])
    out[f"{what} {MEAN}"] = sum(sorted_) / len(sorted_) if all_came else None
    out[f"{what} {MARGIN}"] = margin(sorted_) if all_came else None
    return out


def row_of(net: str, crowd: str, results: Sequence[Result]) -> Row:
    """The row of the results of one net and size, of which there is one at least."""
    runs = len(results)
    undecided = sum(result.end is None for result in results) / runs
    known = any(result.right is not None for result in results)
    wrong = sum(result.right is False for result in results) / runs if known else None
    row = Row(net, crowd, results[0].agents, runs, undecided, wrong)
    row.figures.update(_figures("end", [result.end for result in results]))
    row.figures.update(_figures("agreed", [result.agreed for result in results]))
    return row


def shown(value: float | None) -> str:
    """A figure as it is printed; `-` where it is not known."""
    return "-" if value is None else f"{value:.0f}" if value >= 100 else f"{value:.3g}"


def share(value: float | None) -> str:
    """A share of the runs as it is printed; `-` where it is not known."""
    return "-" if value is None else f"{value:.0%}"


def _interval(row: Row) -> str:
    """Where the share of wrong runs lies, as it is printed."""
    if row.interval is None:
        return "-"
    low, high = row.interval
    return f"{low * 100:.0f}-{high:.0%}"


def _line(parts: Sequence[str], widths: Sequence[int], words: int) -> str:
    """A line of a table, the first columns to the left and the others to the right."""
    made = [part.ljust(w) if i < words else part.rjust(w) for i, (part, w) in enumerate(zip(parts, widths))]
    return "  ".join(made).rstrip()


def _columns(title: str, lines: Sequence[Sequence[str]], words: int) -> list[str]:
    """Lines below a title."""
    widths = [max(len(line[i]) for line in lines) for i in range(len(lines[0]))]
    return [title, *(_line(line, widths, words) for line in lines)]


class Runs:
    """The first part of the table, line by line: `widest` are the words and numbers that its lines may have."""

    def __init__(self, widest: Sequence[tuple[str, str, int, int]]) -> None:
        head = [*ABOUT, INTERVAL]
        columns = [[head[i], *(str(one[i]) for one in widest)] for i in range(len(ABOUT) - 2)]
        self.widths = [max(map(len, column)) for column in columns] + [len(name) for name in head[len(columns) :]]
        self.head = ["runs", _line(head, self.widths, WORDS)]

    def line(self, row: Row) -> str:
        """The line of a row."""
        about = [row.net, row.crowd, str(row.n), str(row.runs), f"{row.undecided:.0%}", share(row.wrong)]
        return _line([*about, _interval(row)], self.widths, WORDS)


def _cell(row: Row, name: str) -> str:
    """A figure; a quantile that is beyond the limit of the runs says so."""
    what, part = name.split(" ", 1)
    is_endless = part not in (MEAN, MARGIN) and row.figures[f"end {part}"] is None and row.undecided > 0
    return NOT_WITHIN if row.figures[name] is None and is_endless else shown(row.figures[name])


def quantiles(rows: Sequence[Row]) -> str:
    """The other two parts of the table."""
    out = []
    nets = len({row.net for row in rows}) > 1
    for what, title in (("end", "meetings to the end"), ("agreed", "meetings to agreement")):
        names = [name for name in FIGURES if name.startswith(f"{what} ")]
        lines = [[*(["net"] if nets else []), "n", *(name.split(" ", 1)[1] for name in names)]]
        for row in rows:
            lines.append([*([row.net] if nets else []), str(row.n), *(_cell(row, name) for name in names)])
        out += ["", *_columns(title, lines, int(nets))]
    return "\n".join(out)


def aligned(rows: Sequence[Row]) -> str:
    """The table as text, in three parts, so that it fits into a terminal."""
    runs = Runs([(row.net, row.crowd, row.n, row.runs) for row in rows])
    return "\n".join([*runs.head, *map(runs.line, rows), quantiles(rows)])


def growths(rows: Sequence[Row]) -> list[str]:
    """A sentence for each net, on the end and on agreement."""
    out = []
    for net in dict.fromkeys(row.net for row in rows):
        for what, name in (("end", "to the end"), ("agreed", "to agreement")):
            known = points(rows, net, what)
            out.append(growth_told(f"{net}: meetings {name}", [n for n, _ in known], [value for _, value in known]))
        left = [row.n for row in rows if row.net == net and row.figures["end median"] is None]
        if left:
            out.append(
                f"{net}: no median at n = {', '.join(map(str, left))}, where half of the runs or more were undecided"
            )
    return out


def points(rows: Sequence[Row], net: str, what: str) -> list[tuple[int, float]]:
    """Sizes and medians of a net, where they are known and not 0."""
    found = [(row.n, row.figures[f"{what} median"]) for row in rows if row.net == net]
    return [(n, value) for n, value in found if value and n > 1]


def csv_text(rows: Sequence[Row], told: str) -> str:
    """The table as comma-separated values, behind a line that says how it was made."""
    out = io.StringIO()
    out.write(f"{MARK}{told}\n")
    writer = csv.writer(out, lineterminator="\n")
    writer.writerow([*ABOUT, *FIGURES])
    for row in rows:
        figures = ["" if row.figures[name] is None else f"{row.figures[name]:.10g}" for name in FIGURES]
        wrong = "" if row.wrong is None else f"{row.wrong:.4g}"
        writer.writerow([row.net, row.crowd, row.n, row.runs, f"{row.undecided:.4g}", wrong, *figures])
    return out.getvalue()


def read_csv(text: str, name: str) -> tuple[list[Row], str]:
    """The rows of a table, and how it was made; InputFault where it is none."""
    first, _, rest = text.partition("\n")
    rows = []
    try:
        for one in csv.DictReader(io.StringIO(rest)):
            # (tables of before have no margins)
            figures = {
                key: float(one[key]) if one.get(key) or MARGIN not in key and one[key] else None for key in FIGURES
            }
            rows.append(
                Row(
                    one["net"],
                    one["crowd"],
                    int(one["n"]),
                    int(one["runs"]),
                    float(one["undecided"]),
                    float(one["wrong"]) if one["wrong"] else None,
                    figures,
                )
            )
        if not rows:
            raise ValueError
    except (ValueError, KeyError, TypeError, csv.Error):
        raise InputFault(f"{name}: this is no whole table, as `bin/pop sweep --csv FILE` writes it") from None
    return rows, first.removeprefix(MARK)
