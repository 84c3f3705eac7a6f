"""`pop plot -o FILE`: the picture of a journal, a trace, many runs or a sweep's table; `--text` draws it in the
terminal."""
from __future__ import annotations

import re
from pathlib import Path
from typing import Any

from ...simulation.crowds import split_words
from ...simulation.curves import MARK as TRACE_MARK
from ...simulation.curves import Curve, read_trace
from ...simulation.ensembles import MARK as ENSEMBLE_MARK
from ...simulation.ensembles import Ensemble, read_ensemble
from ...simulation.journals import read_journal
from ...simulation.maps import MARK as MAP_MARK
from ...simulation.maps import read_map
from ...simulation.meetings import is_list, meetings_curve
from ...show.series import Shown, cropped, part_of, shown_of, shown_of_many
from ...simulation.table import MARK as TABLE_MARK
from ...simulation.table import Row, read_csv
from ...faults import InputFault
from ...text.files import STANDARD_INPUT, read_text
from ...statuses import DONE
from ..usage import UsageFault
from ..table.reading import Given, takes
from . import fields

NAMELESS = "standard input"
OF_CURVES = ("--states", "--by", "--ode", "--phase")
FILES = 2
ENDINGS = (".svg", ".png", ".pdf")
LEAST_INCHES, MOST_INCHES = 2.0, 40.0


def size_of(text: str | None) -> tuple[float, float] | None:
    """The width and height in `7.2x4.2`, in inches; UsageFault where they are none."""
    if text is None:
        return None
    found = re.fullmatch(r"([0-9]{1,2}(?:\.[0-9]+)?)x([0-9]{1,2}(?:\.[0-9]+)?)", text)
    if found is None or not all(LEAST_INCHES <= float(part) <= MOST_INCHES for part in found.groups()):
        raise UsageFault(
            f"`--size` is followed by width and height in inches, {LEAST_INCHES:g} to {MOST_INCHES:g}, as in"
            f" `7.2x4.2`, found `{text}`"
        )
    return float(found[1]), float(found[2])


def _shown(given: Given, text: str, name: str) -> tuple[Shown, Curve | Ensemble]:
    """What is drawn of a journal, of a trace or of many runs, and what was kept of it."""
    by = given.text("--by")
    by_output = None if by is None else by == "output"
    states = [word for word in (given.text("--states") or "").split(",") if word]
    low, high = given.whole("--from"), given.whole("--to") if given.has("--to") else None
    is_part = low > 0 or high is not None
    if text.startswith(ENSEMBLE_MARK):
        made = read_ensemble(text, name)
        made.title = given.text("--title") or made.title
        many = shown_of_many(made, by_output, states)
        return (part_of(many, low, many.times[-1] if high is None else high) if is_part else many), made
    if text.startswith(TRACE_MARK):
        curve = read_trace(text, name)
    elif text.lstrip().startswith("{"):
        curve = meetings_curve(text, name) if is_list(text) else read_journal(text, name)
        curve.title = "" if name == NAMELESS else Path(name).stem
    else:
        raise InputFault(
            f"{name}: this is no journal, no list of meetings, no trace or runs of `simulate --trace`, no map of"
            " `simulate --map`, and no table of `sweep --csv`"
        )
    curve.title = given.text("--title") or curve.title
    return shown_of(cropped(curve, low, high) if is_part else curve, by_output, states), curve


def _put_curves(given: Given, shown: list[Shown]) -> None:
    """Prints or writes the picture of one curve, or of two."""
    path = given.text("--output")
    if given.has("--text"):
        from ...show.textplot import text_curve

        print("\n\n".join(map(text_curve, shown)))
    if path is not None:
        from ...show.pictures import draw_curves, needs_matplotlib, save

        needs_matplotlib()
        save(draw_curves(shown, given.has("--log")), path, size_of(given.text("--size")))


def _put_scan(given: Given, rows: list[Row], told: str, over: str) -> None:
    """The same over a family's parameter."""
    from ...show.scans import draw_scan, text_scan

    what = given.text("--of") or "end"
    if given.has("--text"):
        print(text_scan(rows, what, over))
    if given.has("--output"):
        _save(given, draw_scan(rows, what, over, told))


def _save(given: Given, figure: Any) -> None:
    """Writes a picture."""
    from ...show.pictures import save

    save(figure, given.text("--output") or "", size_of(given.text("--size")))


def _put_table(given: Given, rows: list[Row], told: str) -> None:
    """Prints or writes the picture of a table."""
    what, path, over = given.text("--of") or "end", given.text("--output"), given.text("--over")
    if over is not None:
        _put_scan(given, rows, told, over)
        return
    if given.has("--text"):
        from ...show.textplot import text_table

        print(text_table(rows, what))
    if path is not None:
        from ...show.pictures import draw_table, needs_matplotlib, save

        needs_matplotlib()
        save(draw_table(rows, what, told), path, size_of(given.text("--size")))


def _put_map(given: Given, text: str, name: str) -> None:
    """Prints or writes the pictures of a graph."""
    made, path = read_map(text, name), given.text("--output")
    made.title = given.text("--title") or made.title
    for option in (*OF_CURVES, "--log", "--to"):
        if given.has(option):
            raise UsageFault(f"`{option}` is for a journal, a trace or many runs: a map has panels of its own")
    if len(given.words) > 1:
        raise UsageFault("a map is drawn alone")
    if given.has("--text"):
        from ...show.mappicture import text_map

        print(text_map(made))
    if path is not None:
        from ...show.mappicture import draw_map
        from ...show.pictures import needs_matplotlib, save

        needs_matplotlib()
        save(draw_map(made), path, size_of(given.text("--size")))


def _checked(given: Given) -> None:
    """UsageFault where nothing says where the picture goes."""
    path = given.text("--output")
    if path is None and not given.has("--text"):
        raise UsageFault(f"a picture goes to a file or to the terminal: {takes(given.command)}")
    if path is not None and not path.endswith(ENDINGS):
        raise UsageFault(f"`-o` is followed by a file that ends in .svg, .png or .pdf, found `{path}`")
    size_of(given.text("--size"))


def _checked_table(given: Given) -> None:
    """UsageFault where something is asked that a sweep's table doesn't have."""
    if len(given.words) > 1:
        raise UsageFault("the table of a sweep is drawn alone: it has all its nets")
    for option in OF_CURVES:
        if given.has(option):
            raise UsageFault(f"`{option}` is for a journal, a trace or many runs: a sweep's table has no states")


def _checked_words(given: Given) -> tuple[list[str], list[str]]:
    """The files, of which there are two at most, and the counts, with which the mean field begins."""
    files, counts = split_words(given.words)
    if len(files) > FILES or counts and files:
        raise UsageFault(takes(given.command))
    if counts and not given.has("--ode"):
        raise UsageFault("counts are the start of a mean field: they go with `--ode`")
    return files, counts


def run(given: Given) -> int:
    """Draws what the input is, which is seen from its first line; two curves are drawn on the same axes."""
    _checked(given)
    files, counts = _checked_words(given)
    field, both = fields.of_field(given), fields.both_of(given)
    if field is not None and counts:
        if both is None:
            _put_curves(given, [fields.field_alone(given, field, counts)])
        else:
            _save(given, fields.portrait(given, field, [], counts))
        return DONE
    shown, kept = [], []
    for path in files or [STANDARD_INPUT]:
        text, name = read_text(path), NAMELESS if path == STANDARD_INPUT else path
        if text.startswith(TABLE_MARK):
            _checked_table(given)
            _put_table(given, *read_csv(text, name))
            return DONE
        if text.startswith(MAP_MARK):
            _put_map(given, text, name)
            return DONE
        one, made = _shown(given, text, name)
        shown.append(one if field is None or both else fields.field_beside(field, made, one))
        kept.append(made)
    if both is None:
        _put_curves(given, shown)
    else:
        _save(given, fields.portrait(given, field, kept, counts))
    return DONE
