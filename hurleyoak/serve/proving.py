"""A proof checked by the program, or looked for, and explained."""
from __future__ import annotations

import time
from typing import Any, Callable

from ..engine import program
from ..show.explaining import bundle_to_explain, explain
from ..faults import InputFault
from ..text.files import load
from ..text.loaded import Loaded, strict_bundle
from ..text.saving import with_proof
from ..search.howfar import Going
from ..search.jobs import Result, Task
from ..search.processes import processors
from ..engine.inputs import Asked
from ..proof.bundles import Bundle
from ..text.scanner import TextFault
from ..show.told.answers import told as answer_told
from ..text.writer import loaded_text
from .limits import SECONDS
from .protocol import NAME, Fault, Mark, MarkKind, faults_of, has_lines, labels_of, loaded_of, mark
from .request import Request, Tell, flag_in, text_in, whole_in
from ..show.values import answer_value, explanation_value
from .trying import flaw_value

MOST_FIND, MOST_SMALL = 1_800, 60


def explained(loaded: Loaded, bundle: Bundle) -> dict[str, Any]:
    """The program's answer on a bundle, and what is to be said of it."""
    answer = program.check(bundle.line())
    if answer.status not in (program.DONE, program.REJECTED):
        raise Fault(
            answer_told(Asked(["check"], [bundle.line()], ["the bundle"]), answer.text.splitlines()[:3], answer.status)
        )
    told = explain(loaded, bundle, answer.text)
    return {"answer": answer_value(answer), "explanation": explanation_value(told), "bundle": bundle.line()}


def _open_parts(loaded: Loaded) -> list[Mark]:
    """What is still open in the proof, or stands for nothing in it: then the program was asked about the rest."""
    try:
        strict_bundle(loaded)
    except (TextFault, InputFault) as fault:
        return faults_of(fault)
    return []


def _refused_places(loaded: Loaded, value: dict[str, Any]) -> list[Mark]:
    """The first node that is refused, at its line, where the text has one."""
    for leaf in value["leaves"]:
        for tree in (leaf["true"], leaf["false"]):
            for node in tree:
                if node.get("refused") and node.get("line"):
                    told = "; ".join([f"node {node['n']} is refused: {node['refused']}", *node.get("lacks", [])])
                    return [mark(MarkKind.REFUSED, told, node["line"])]
    return []


def check_task(request: Request, tell: Tell) -> dict[str, Any]:
    """The proof in the text."""
    loaded = loaded_of(request)
    open_parts = _open_parts(loaded)
    out = explained(loaded, bundle_to_explain(loaded))
    refused = [] if out["answer"]["good"] else _refused_places(loaded, out["explanation"])
    taken = {one["line"] for one in open_parts}
    return {
        **out,
        "faults": open_parts + [one for one in refused if one["line"] not in taken],
        "whole": not open_parts,
    }


def _told_result(result: Result) -> dict[str, Any]:
    told = result.reason or (
        f"{len(result.goal.listed)} moves in layers, {len(result.goal.nodes)} nodes"
        if result.goal
        else f"{len(result.layers)} layer{'' if len(result.layers) == 1 else 's'}"
        if result.layers
        else f"{len(result.tree)} nodes"
        if result.tree
        else "a wrong crowd"
        if result.flaw
        else "a wrong crowd that `assume` leaves out"
        if result.left_out
        else f"none up to {result.tried.agents} agents"
    )
    return {
        "at": result.at,
        "task": result.kind,
        "seconds": round(result.seconds, 2),
        "told": told,
        "good": not result.why and not result.flaw and not result.left_out,
    }


def _seconds(request: Request) -> int:
    return whole_in(request, "seconds", int(SECONDS["find"]), 1, MOST_FIND)


def _begins(loaded: Loaded, seconds: int, tell: Tell) -> Callable[[list[Task]], None]:
    """Tells which tasks there are."""
    return lambda tasks: tell(
        "tasks", {"tasks": [[task.at, task.kind] for task in tasks], "labels": labels_of(loaded), "seconds": seconds}
    )


def _comes(tell: Tell) -> Callable[[Result], None]:
    """Tells what came of a task."""
    return lambda result: tell("came", _told_result(result))


def _goes_on(tell: Tell) -> Going:
    """Tells how far each task is."""
    return lambda shares: tell("going", {"shares": [round(share, 3) for share in shares]})


def _text_with(request: Request, loaded: Loaded, bundle: Bundle) -> str:
    """The text with the proof in it; its comments stay where that can be."""
    text = text_in(request, "text")
    try:
        return loaded_text(loaded, bundle) if not has_lines(loaded) else with_proof(text, bundle)
    except InputFault:
        return loaded_text(loaded, bundle)


def _proof_found(request: Request, loaded: Loaded, bundle: Bundle, told: list[str], took: float) -> dict[str, Any]:
    text = _text_with(request, loaded, bundle)
    # (explained from its own text, so that each node knows its line there)
    shown = explained(load(text, NAME), bundle)
    return {"found": "proof", "told": told, "text": text, "took": round(took, 2), **shown}


def find_task(request: Request, tell: Tell) -> dict[str, Any]:
    """A certified bundle, a crowd that is wrong, or why there is neither."""
    from ..search.finding import find
    from ..show.telling import failure_told, left_out_told

    loaded = loaded_of(request)
    seconds = _seconds(request)
    small = whole_in(request, "small", 4, 0, MOST_SMALL)
    begins = _begins(loaded, seconds, tell)
    found = find(loaded, seconds, small, processors(), flag_in(request, "anew"), begins, _comes(tell), _goes_on(tell))
    if found.flaw is not None:
        return {"found": "flaw", **flaw_value(loaded, found.flaw)}
    if found.left_out is not None:
        return {"found": "nothing", "told": left_out_told(loaded, found.left_out).split("\n")}
    if found.bundle is None:
        return {"found": "nothing", "told": failure_told(loaded, found.failures[0]).split("\n")}
    return _proof_found(request, loaded, found.bundle, found.told(), found.seconds)


def mend_task(request: Request, tell: Tell) -> dict[str, Any]:
    """The proof in the text with what the program refuses found anew: `?` in its place, and in its parents' where that
    isn't enough."""
    from ..search.finding import Outcome, find
    from ..search.mending import mended
    from ..show.telling import left_out_told

    loaded = loaded_of(request)
    seconds = _seconds(request)
    outcomes: list[Outcome] = []

    def look(one: Loaded) -> Bundle | None:
        begins = _begins(loaded, seconds, tell)
        outcomes.append(find(one, seconds, 0, processors(), False, begins, _comes(tell), _goes_on(tell)))
        return outcomes[-1].bundle

    bundle = strict_bundle(loaded)
    before = program.check(bundle.line())
    start = time.monotonic()
    bundle, answer = mended(loaded, bundle, before, look)
    flaws = [one.flaw for one in outcomes if one.flaw is not None]
    if answer.status == program.DONE:
        return _proof_found(
            request,
            loaded,
            bundle,
            [f"mended: the program said `{before.first_line}` of the proof before"],
            time.monotonic() - start,
        )
    if flaws:
        return {"found": "flaw", **flaw_value(loaded, flaws[0])}
    left_out = [one.left_out for one in outcomes if one.left_out is not None]
    if left_out:
        return {"found": "nothing", "told": left_out_told(loaded, left_out[0]).split("\n")}
    return {
        "found": "nothing",
        "told": ["no proof was found in the place of what is refused; `Find another` looks for all of it"],
    }
