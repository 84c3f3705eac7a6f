"""`pop page FILE [x=30 y=10] -o page.html`: a protocol as one page without a server."""
from __future__ import annotations

from pathlib import Path

from ..usage import UsageFault
from ...library.asked import met
from ...serve.still import curve_value, measured, named_text, page_value, still_page, usual_counts
from ...simulation.crowds import counts_of, split_words
from ...simulation.curves import read_trace
from ...statuses import DONE, REJECTED
from ...text.files import STANDARD_INPUT, read_text
from ..table.reading import Given, takes
from . import warn
from .inputs import load_read, members_of


def run(given: Given) -> int:
    """Prints the page, or writes it where `-o` names a file; 3 where the program rejects the proof."""
    files, words = split_words(given.words)
    if len(files) > 1:
        raise UsageFault(takes(given.command))
    path = files[0] if files else STANDARD_INPUT
    text = read_text(path)
    loaded = load_read(given, path, text)
    warn(loaded.warnings, loaded.name)
    title = given.text("--title") or ("protocol.pop" if path == STANDARD_INPUT else Path(path).name)
    loaded, text = named_text(loaded, None if members_of(text, path) else text)
    curves = [
        curve_value(read_trace(read_text(trace), trace), [f"from {Path(trace).name}"])
        for trace in given.texts("--trace")
    ]
    if words or not curves:
        counts = counts_of(loaded.net, words) if words else usual_counts(loaded)
        if counts is not None:
            curves.append(curve_value(*measured(loaded, met(loaded, counts), given.whole("--seed"))))
    value = page_value(loaded, title, text, curves)
    print(still_page(value), end="")
    return DONE if value["check"] is None or value["check"]["good"] else REJECTED
