"""`pop draw -o FILE`: the picture of a net: states by output, moves as arrows, leaves side by side."""
from __future__ import annotations

from ...protocol.laws import LAWS_TOLD
from ...show.netdrawing import about_text, dot_text, draw, table_text
from ...statuses import DONE
from . import warn
from .inputs import load_given
from ..usage import UsageFault
from ..table.reading import Given, takes
from .simulate import net_title


def run(given: Given) -> int:
    """Draws the net, or prints the text for graphviz, or the table."""
    path = given.text("--output")
    if path is None and not (given.has("--dot") or given.has("--text")):
        raise UsageFault(f"a picture goes to a file or to the terminal: {takes(given.command)}")
    if path is not None and not path.endswith((".svg", ".png")):
        raise UsageFault(f"`-o` is followed by a file that ends in .svg or .png, found `{path}`")
    loaded = load_given(given)
    warn([told for told in loaded.warnings if told != LAWS_TOLD], loaded.name)
    title = given.text("--title") or (net_title(loaded) if given.words else "")
    text = dot_text(loaded.net, title, about_text(loaded.net))
    if path is not None:
        draw(text, path)
    if given.has("--dot"):
        print(text, end="")
    if given.has("--text"):
        print(table_text(loaded.net))
    return DONE
