"""The drawing of a net as places for the page, which draws it, and predicates compiled to nets."""
from __future__ import annotations

import json
import shutil
import subprocess
from typing import Any

from ..compiler.drafts import NotBuilt
from ..engine import program
from ..engine.compiling import NAMES, NotCertified, make_bundle
from ..proof.bundles import bundle_of
from ..proof.joining import Lost, joined, negated
from ..show.netdrawing import DRAWN_STATES, arrows, met_text, rows_of, starts
from ..text.files import load
from ..text.loaded import Loaded, bundle_in, strict_bundle
from ..engine.inputs import Asked
from ..text.relaxed import in_form
from ..protocol.nets import FormatFault, Leaf, Net
from ..show.told.answers import told as answer_told
from ..text.writer import loaded_text
from .protocol import NAME, Fault, labels_of, loaded_of
from .request import Request, Tell, text_in
from ..show.values import answer_value

DRAWN_SECONDS = 20.0
GLYPH, LETTER = 0.11, 0.085  # inches of a letter of a state's name, and of a label, at most
POINTS = 72
PROGRAM_SAYS = "the program says: "


def _quoted(text: str) -> str:
    return '"' + text.replace("\\", "\\\\").replace('"', '\\"') + '"'


def _dot(net: Net, leaf: Leaf) -> str:
    """The leaf for graphviz by numbers alone: names are the page's, and labels here only take their room."""
    lines = [
        "digraph leaf {",
        "rankdir=LR",
        "nodesep=0.35",
        "ranksep=0.6",
        "node [shape=box fixedsize=true]",
        "edge [fontsize=11 fontname=Helvetica]",
    ]
    for q, name in enumerate(leaf.states):
        lines.append(f's{q} [label="" width={max(0.55, 0.3 + GLYPH * len(name)):.2f} height=0.55]')
        words = starts(net, leaf, q)
        if words:
            lines.append(f'i{q} [label="" shape=none width={0.15 + LETTER * len(words):.2f} height=0.3]')
            lines.append(f"i{q} -> s{q}")
    for (p, r), met in arrows(leaf).items():
        lines.append(f"s{p} -> s{r} [label={_quoted('m' * max(2, round(len(met_text(leaf, met)) * 0.75)))}]")
    return "\n".join([*lines, "}"]) + "\n"


def _numbers(text: str) -> list[float]:
    return [float(part) for part in text.split(",")]


def _path(text: str) -> tuple[list[list[float]], list[float]]:
    """The points of a curve, and where its arrow ends."""
    end: list[float] = []
    points = []
    for part in text.split():
        if part.startswith("e,"):
            end = _numbers(part[2:])
        elif not part.startswith("s,"):
            points.append(_numbers(part))
    return points, end or points[-1]


def _placed(dot: str) -> dict[str, Any] | None:
    """What graphviz makes of it; None where it isn't there or fails."""
    path = shutil.which("dot")
    if path is None:
        return None
    try:
        run = subprocess.run(
            [path, "-Tjson0"],
            input=dot.encode(),
            stdout=subprocess.PIPE,
            stderr=subprocess.DEVNULL,
            timeout=DRAWN_SECONDS,
            check=False,
        )
        made: dict[str, Any] = json.loads(run.stdout) if run.returncode == 0 else {}
    except (subprocess.TimeoutExpired, ValueError):
        return None
    return made or None


def leaf_drawing(net: Net, leaf: Leaf, label: str) -> dict[str, Any]:
    rows = [list(row) for row in rows_of(net, leaf)]
    links = [{"from": p, "to": r, "met": met, "text": met_text(leaf, met)} for (p, r), met in arrows(leaf).items()]
    out: dict[str, Any] = {
        "label": label,
        "rows": rows,
        "links": links,
        "places": None,
        "starts": [starts(net, leaf, q) for q in range(len(leaf.states))],
    }
    made = _placed(_dot(net, leaf)) if len(leaf.states) <= DRAWN_STATES else None
    if made is None:
        return out
    width, height = _numbers(made["bb"])[2:]
    at = {node["name"]: node for node in made.get("objects", [])}
    numbers = {node["_gvid"]: node["name"] for node in made.get("objects", [])}
    curves: dict[tuple[str, str], dict[str, Any]] = {}
    for edge in made.get("edges", []):
        points, end = _path(edge["pos"])
        curve = {"points": points, "end": end, "label": _numbers(edge["lp"]) if "lp" in edge else None}
        curves[numbers[edge["tail"]], numbers[edge["head"]]] = curve
    states = [[*_numbers(at[f"s{q}"]["pos"]), float(at[f"s{q}"]["width"]) * POINTS] for q in range(len(leaf.states))]
    begins = {str(q): _numbers(at[f"i{q}"]["pos"]) for q in range(len(leaf.states)) if f"i{q}" in at}
    for link in links:
        link.update(curves[f"s{link['from']}", f"s{link['to']}"])
    first = {str(q): curves[f"i{q}", f"s{q}"] for q in range(len(leaf.states)) if f"i{q}" in at}
    out["places"] = {"width": width, "height": height, "states": states, "starts": begins, "first": first}
    return out


def drawings(loaded: Loaded) -> dict[str, Any]:
    """The drawing of each leaf."""
    return {
        "leaves": [leaf_drawing(loaded.net, leaf, label) for leaf, label in zip(loaded.net.leaves, labels_of(loaded))],
        "drawn": shutil.which("dot") is not None,
    }


def net_task(request: Request, tell: Tell) -> dict[str, Any]:
    """The drawing of the net."""
    return drawings(loaded_of(request))


def compile_task(request: Request, tell: Tell) -> dict[str, Any]:
    """A predicate compiled to a net with its proof: the program's own, a succinct one or a quick one; the program
    then checks it."""
    text = " ".join(text_in(request, "of").split())
    if not text:
        raise Fault(["a predicate is missing, as in `x - y < 3`"])
    way = NAMES.get(text_in(request, "way", "smallest"))
    if way is None:
        raise Fault([f"`way` is one of {', '.join(NAMES)}"])
    form, names = in_form(text, None)
    try:
        made = make_bundle(names, form, way)
    except (NotBuilt, NotCertified) as fault:
        raise Fault([str(fault)]) from None
    if made.answer.status != program.DONE:
        asked = Asked(["compile"], [f"vars {' '.join(names)}", form], ["the variables", "the predicate"])
        raise Fault(answer_told(asked, made.answer.text.splitlines()[:3], made.answer.status))
    own = not (made.told and made.told[-1].startswith(PROGRAM_SAYS))
    return {
        "form": form,
        "told": made.told,
        "own": own,
        **_bundle_shown(made.answer.first_line, f"# {form}\n# compiled, with its proof\n\n"),
    }


def _bundle_shown(line: str, head: str) -> dict[str, Any]:
    """A bundle as a text, with what the program says of it and the size of its leaves."""
    loaded = load(line, NAME)
    return {
        "text": head + loaded_text(loaded, bundle_in(loaded)),
        "bundle": line,
        "answer": answer_value(program.check(line)),
        "leaves": [[len(leaf.states), len(leaf.active)] for leaf in loaded.net.leaves],
    }


def _starts(request: Request) -> dict[str, str]:
    """Where variables start that one of two nets lacks."""
    starts = {}
    for word in text_in(request, "starts").split():
        name, sign, state = word.partition("=")
        if not sign:
            raise Fault([f"a start is VARIABLE=STATE, found `{word}`"])
        starts[name] = state
    return starts


def join_task(request: Request, tell: Tell) -> dict[str, Any]:
    """The text's bundle and another's joined by `and` or `or`, or its negation, where the program certifies it."""
    how = text_in(request, "how")
    if how not in ("and", "or", "not"):
        raise Fault(["`how` is `and`, `or` or `not`"])
    first = strict_bundle(loaded_of(request))
    try:
        if how == "not":
            made = negated(first)
        else:
            made = joined(
                how, first, strict_bundle(load(text_in(request, "other"), "the other text")), _starts(request)
            )
        bundle_of(made.value())
    except Lost as lost:
        raise Fault(
            [f"the proof of one of them names `{lost}`, which isn't there any more: look for another proof"]
        ) from None
    except FormatFault:
        raise Fault(["the joined net is over a limit of the file"]) from None
    return {"form": made.pred, "told": [], **_bundle_shown(made.line(), f"# {made.pred}\n\n")}
