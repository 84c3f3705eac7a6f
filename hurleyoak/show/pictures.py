"""Pictures of curves and tables by matplotlib, as SVG, PNG or PDF."""
from __future__ import annotations

from io import BytesIO
from math import log
from typing import Any, Sequence

from ..faults import InputFault
from ..writing import write_whole
from ..simulation.growth import Fit, fits_of
from ..simulation.timeline import PER_AGENT
from .look import COLOURS, FALSE_COLOUR, GREY, TRUE_COLOUR, apart
from .series import Series, Shown, ending
from ..simulation.table import Row, points

SIZE = (7.2, 4.2)
DOTS = 144
LABEL_ROOM = 0.055  # of the picture's height, for each label
FIT_POINTS = 60
LEFT = 0.02
MOVED, LEADER = 0.012, (1.002, 1.022)  # how far a label moves before it has a line, and where that line stands
DASHES: list[Any] = ["-", (0, (6, 2)), (0, (2, 1.4)), (0, (7, 2, 1.5, 2)), (0, (4, 1.5)), (0, (1, 1)), (0, (9, 3))]
MARKS = "osD^vPX"
MARK_ROOM = 0.16  # of the picture between two marks
WIDTHS = (1.6, 0.8)  # of the lines of the first input, and of the second
BAND = 0.22
LEFT_INCHES, BELOW_INCHES, WIDE_INCHES = 0.7, 0.5, 6.0  # room for labels; a narrower picture has a title alone


def needs_matplotlib() -> Any:
    """The module that draws, or an InputFault that says what to install."""
    try:
        import matplotlib
    except ImportError:
        raise InputFault(
            "pop plot -o needs matplotlib: apt-get install python3-matplotlib (`--text` needs nothing)"
        ) from None
    matplotlib.use("Agg")
    matplotlib.rcParams.update(
        {
            "text.parse_math": False,
            "svg.fonttype": "none",
            "svg.hashsalt": "pop",
            "font.family": "DejaVu Sans",
            "path.simplify_threshold": 0.5,
        }
    )
    from matplotlib import pyplot

    return pyplot


def framed(title: str, below: str, size: tuple[float, float] = SIZE) -> tuple[Any, Any]:
    """A figure with its words, and its axes."""
    pyplot = needs_matplotlib()
    figure, axes = pyplot.subplots(figsize=size)
    figure.text(LEFT, 0.945, title, fontsize=11, fontweight="bold", gid="title")
    figure.text(LEFT, 0.89, below, fontsize=8.5, color=GREY, gid="about")
    for side in ("top", "right"):
        axes.spines[side].set_visible(False)
    axes.tick_params(labelsize=8.5)
    return figure, axes


def _labels(axes: Any, names: Sequence[str], colours: Sequence[str], ends: Sequence[float]) -> None:
    """Names to the right of the lines' ends; `ends` are heights from 0 to 1. A name that had to move has a line to its
    own."""
    for name, colour, end, height in zip(names, colours, ends, apart(ends, LABEL_ROOM)):
        if abs(height - end) > MOVED:
            axes.plot(LEADER, [end, height], transform=axes.transAxes, clip_on=False, gid="leader", **_thin(colour))
        axes.annotate(
            name,
            (1.025, height),
            xycoords="axes fraction",
            color=colour,
            va="center",
            fontsize=9,
            annotation_clip=False,
        )


def _thin(colour: str) -> dict[str, Any]:
    return {"color": colour, "linewidth": 0.7}


def _logarithmic_time(axes: Any) -> None:
    from matplotlib.ticker import FuncFormatter, LogLocator, NullFormatter

    axes.set_xscale("log")
    axes.xaxis.set_major_locator(LogLocator(subs=(1.0, 2.0, 5.0)))
    axes.xaxis.set_major_formatter(FuncFormatter(lambda value, _: f"{value:g}"))
    axes.xaxis.set_minor_formatter(NullFormatter())


def _line(axes: Any, shown: Shown, series: Series, colour: str, number: int, of: int) -> None:
    """One line, told apart by colour, dashes and marks; those of a second input are thin, with hollow marks. Its mean
    field is dotted."""
    times = shown.times
    if series.field:
        name = f"field{number}" if not of else f"field{number}of{of}"
        axes.plot(shown.field_times, series.field, color=colour, linewidth=1.3, linestyle=(0, (1, 1.6)), gid=name)
    axes.plot(
        times,
        series.counts,
        drawstyle="default" if series.low or shown.is_smooth else "steps-post",
        color=colour,
        linewidth=WIDTHS[of % len(WIDTHS)],
        linestyle=DASHES[number % len(DASHES)],
        marker=MARKS[number % len(MARKS)],
        markersize=4,
        markerfacecolor="white" if of else colour,
        markevery=(0.02 + 0.03 * (number % 5), MARK_ROOM),
        gid=f"series{number}" if not of else f"series{number}of{of}",
    )
    if series.low:
        axes.fill_between(times, series.low, series.high, color=colour, alpha=BAND, linewidth=0, gid=f"band{number}")


def draw_curve(shown: Shown, is_log: bool = False) -> Any:
    """Counts over parallel time, with the moment of the last change; the time is logarithmic where it is asked for."""
    return draw_curves([shown], is_log)


def _spans(shown: Sequence[Shown], is_log: bool) -> tuple[float, float, int]:
    """The times from which to which is drawn, and up to how many agents."""
    first, last = min(one.times[0] for one in shown), max(max(one.times[-1], 1e-9) for one in shown)
    if is_log:
        after = [time for one in shown for time in one.times if time > 0]
        first = first or min(after, default=last / 10)
    return first, last, max(one.agents for one in shown)


def draw_curves(shown: Sequence[Shown], is_log: bool = False) -> Any:
    """One curve or two on the same axes; a state has one colour in both."""
    several = len(shown) > 1
    if several:
        figure, axes = framed(f"1, thick: {shown[0].title}", f"2, thin: {shown[1].title}")
    else:
        figure, axes = framed(shown[0].title, ending(shown[0]))
    first, last, agents = _spans(shown, is_log)
    known: dict[str, int] = {}
    names, colours, ends = [], [], []
    for of, one in enumerate(shown):
        by_output = [series.name for series in one.series] == ["true", "false"]
        palette = [TRUE_COLOUR, FALSE_COLOUR] if by_output else COLOURS
        for series in one.series:
            number = known.setdefault(series.name, len(known))
            colour = palette[number % len(palette)]
            _line(axes, one, series, colour, number, of)
            names.append((f"output {series.name}" if by_output else series.name) + (f" ({of + 1})" if several else ""))
            colours.append(colour)
            ends.append(series.counts[-1] / (agents * 1.03))
    if is_log:
        _logarithmic_time(axes)
    axes.set_xlim(first, last)
    axes.set_ylim(0, agents * 1.03)
    if not several and first < shown[0].last_change <= last:
        dashed = (0, (4, 3))
        axes.axvline(
            shown[0].last_change, color=GREY, linewidth=0.9, linestyle=dashed, gid="last-change", clip_on=False
        )
    _labels(axes, names, colours, ends)
    unit = shown[0].unit
    axes.set_xlabel(f"parallel time: {unit}" if unit == PER_AGENT else unit, fontsize=9)
    axes.set_ylabel("agents", fontsize=9)
    figure.subplots_adjust(left=0.105, right=0.83, top=0.84, bottom=0.12)
    return figure


def _fitted(axes: Any, fit: Fit, low: float, high: float, colour: str, number: int) -> None:
    sizes = [low * (high / low) ** (i / (FIT_POINTS - 1)) for i in range(FIT_POINTS)]
    axes.plot(
        sizes, [fit.at(n) for n in sizes], color=colour, linewidth=1.0, linestyle=(0, (5, 3)), gid=f"fit{number}"
    )


def _raised(text: str) -> str:
    """Powers as small raised signs."""
    raised = text.replace("n^1.5", "n¹·⁵").replace("sqrt n", "√n")
    return raised.replace("^2", "²").replace("^3", "³").replace("^n", "ⁿ").replace(" * ", " · ")


def _net(axes: Any, rows: Sequence[Row], net: str, what: str, number: int) -> tuple[str, float] | None:
    """The points of a net with their quartiles, and its fitted growth; its label, and the last median."""
    colour = COLOURS[number % len(COLOURS)]
    known = points(rows, net, what)
    if not known:
        return None
    bars = {row.n: row.figures for row in rows if row.net == net}
    low = [value - (bars[n][f"{what} quarter"] or value) for n, value in known]
    high = [(bars[n][f"{what} three quarters"] or value) - value for n, value in known]
    sizes, medians = [n for n, _ in known], [value for _, value in known]
    container = axes.errorbar(
        sizes, medians, yerr=[low, high], fmt="o", color=colour, markersize=4.5, capsize=2.5, linewidth=1.1
    )
    container[0].set_gid(f"medians{number}")
    fits = fits_of(sizes, medians)
    if fits:
        _fitted(axes, fits[0], min(sizes), max(sizes), colour, number)
    return f"{net}\n{_raised(fits[0].text)}" if fits else net, medians[-1]


def draw_table(rows: Sequence[Row], what: str, told: str) -> Any:
    """Medians and quartiles over the number of agents on double logarithmic axes, with the fitted growth."""
    names = {"end": "to the end", "agreed": "to agreement"}
    figure, axes = framed(f"Meetings {names[what]}: {', '.join(dict.fromkeys(row.net for row in rows))}", told)
    axes.set_xscale("log")
    axes.set_yscale("log")
    nets = list(dict.fromkeys(row.net for row in rows))
    labels = [(number, found) for number, net in enumerate(nets) if (found := _net(axes, rows, net, what, number))]
    if not labels:
        raise InputFault("the table has no median that is known: half of the runs or more were undecided at each size")
    figure.subplots_adjust(left=0.105, right=0.75, top=0.84, bottom=0.12)
    low, high = map(log, axes.get_ylim())
    heights = [(log(value) - low) / (high - low) for _, (_, value) in labels]
    spaced = apart(heights, 2.2 * LABEL_ROOM)
    for (number, (name, _)), height in zip(labels, spaced):
        axes.annotate(
            name,
            (1.02, height),
            xycoords="axes fraction",
            color=COLOURS[number % len(COLOURS)],
            va="center",
            fontsize=9,
            annotation_clip=False,
        )
    axes.set_xlabel("agents n", fontsize=9)
    axes.set_ylabel(f"meetings {names[what]}: median and quartiles", fontsize=9)
    return figure


def save(figure: Any, path: str, size: tuple[float, float] | None = None) -> None:
    """Writes a picture by its file's ending, of a size in inches; WriteFault where that fails."""
    import matplotlib

    kind = path.rsplit(".", 1)[1]
    made = BytesIO()
    if size is not None:
        figure.set_size_inches(*size)
        figure.subplots_adjust(left=max(LEFT_INCHES / size[0], 0.105), bottom=max(BELOW_INCHES / size[1], 0.12))
        for text in figure.texts:
            text.set_visible(text.get_gid() != "about" or size[0] >= WIDE_INCHES)
    dates = {"svg": {"Date": None}, "pdf": {"CreationDate": None}}
    try:
        figure.savefig(made, format=kind, dpi=DOTS, metadata=dates.get(kind))
    finally:
        matplotlib.pyplot.close(figure)
    write_whole(path, made.getvalue())
