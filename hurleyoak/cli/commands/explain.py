"""`pop explain [FILE] [PREDICATE]`: layers, trees and facts of a bundle, and what is missing where it is rejected; or
meetings one by one."""
from __future__ import annotations

from ...engine import program
from ...show.drawing import drawn
from ...show.explaining import bundle_to_explain, explain
from ...faults import InputFault
from ...simulation.meetings import is_list, read_meetings, steps_of
from ...text.files import read_text
from ...text.given import with_predicate
from ..table.reading import Given
from . import warn
from .inputs import load_read, named


def run(given: Given) -> int:
    """Prints the program's line first, and ends with the program's status."""
    text = read_text(given.path)
    if is_list(text):
        return _meetings(given, text)
    loaded = load_read(given, given.path, text)
    if len(given.words) == 2:
        own = loaded.predicate
        has_proof = loaded.has_proof
        loaded = with_predicate(loaded, given.words[1])
        if has_proof and loaded.predicate != own:
            raise InputFault(
                f"{loaded.name} has a proof of its own predicate `{own}`, which says nothing of `{loaded.predicate}`:"
                " leave the predicate out"
            )
    warn(loaded.warnings, loaded.name)
    bundle = bundle_to_explain(loaded)
    answer = program.check(bundle.line())
    told = explain(loaded, bundle, answer.text)
    if given.has("--html"):
        from ...show.page import page

        print(page(told), end="")
    else:
        print(drawn(told, given.has("--all")), end="")
    return answer.status


def _meetings(given: Given, text: str) -> int:
    """What the program plays of a list of meetings, with the crowds on the way."""
    from ...show.slider import is_as_printed, is_small, meetings_page, meetings_text

    if len(given.words) == 2:
        raise InputFault("a list of meetings has no predicate: leave it out")
    made = read_meetings(text, named(given.path))
    answer = program.ask(["play"], text)
    printed = answer.text.splitlines()
    if answer.status == program.DONE and not is_small(made):
        raise InputFault(f"{named(given.path)}: these are too many meetings to show; `pop plot` draws their curve")
    steps = list(steps_of(made)) if answer.status == program.DONE else []
    if not steps or not is_as_printed(steps[-1], printed):
        print(answer.text, end="")
    elif given.has("--html"):
        print(meetings_page(made, printed), end="")
    else:
        print(meetings_text(steps) + "\n" + answer.text, end="")
    return answer.status
