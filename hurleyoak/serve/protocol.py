"""A text of the page read: what is wrong in it and where, and the net as the page plays and draws it."""
from __future__ import annotations

import re
from dataclasses import replace
from enum import StrEnum
from typing import Any, Sequence

from ..faults import InputFault
from ..text.families import MEMBER_LIMIT, member_name
from ..text.files import load
from ..text.given import READ_AS, with_predicate
from ..text.loaded import Loaded, LoadedBundle, bundle_in, predicates_differ
from ..search.explore import first_moves
from ..text.membersof import load_member, member_faults, members_of
from ..text.reading_on import faults_in
from ..text.relaxed import in_form
from ..proof.names import Names
from ..protocol.nets import Leaf, Net
from ..protocol.predicatereader import read_predicate
from ..protocol.predicates import PredicateFault
from ..protocol.reactions import leaf_ways
from ..protocol.naming import state_text
from ..text.scanner import TextFault, without_comment
from ..text.writer import combine_text, leaf_names, loaded_text
from .request import Request, Tell, text_in, whole_in

NAME = "protocol"


class MarkKind(StrEnum):
    """How the page shows what is said of a place."""

    FAULT = "fault"
    NOTE = "note"
    WARNING = "warning"
    REFUSED = "refused"


FAULT, NOTE, WARNING = MarkKind.FAULT, MarkKind.NOTE, MarkKind.WARNING

_PREDICATE = re.compile(r"\s*(?:computes|predicate)\s+(.*)")
_LINE = re.compile(r"(?:leaf \d+: )?line (\d+): ")

Mark = dict[str, Any]


class Fault(Exception):
    """Something cannot be done: sentences, and marks at places of the text."""

    def __init__(self, told: list[str], marks: list[Mark] | None = None) -> None:
        super().__init__("\n".join(told))
        self.told, self.marks = told, marks or []


def _rewritten(quoted: str, variables: Sequence[str] | None = None) -> Mark:
    """Where a predicate is written as people write it: what it is in the grammar's form, which the page offers."""
    found = _PREDICATE.fullmatch(without_comment(quoted))
    if not found:
        return {}
    text = found[1].strip()
    form, names = in_form(text, variables)
    try:
        read_predicate(form, names)
    except (PredicateFault, RecursionError):
        return {}
    return {} if form == text else {"fix": {"old": text, "new": form}}


def mark(kind: MarkKind, told: str, line: int = 0, column: int = 0) -> Mark:
    """What is said of a place; line 0 where it is said of the whole."""
    return {"kind": kind, "told": told, "line": line, "column": column}


def faults_of(fault: Exception) -> list[Mark]:
    """The mark of a fault."""
    if isinstance(fault, TextFault):
        return [{**mark(FAULT, fault.told, fault.line, fault.column), **_rewritten(fault.quoted)}]
    if isinstance(fault, InputFault) and fault.line:
        return [{**mark(FAULT, fault.sentence, fault.line, fault.column), **_rewritten(fault.quoted)}]
    # (of JSON that breaks a rule the program's line comes first, then the sentence)
    told = [line for line in str(fault).split("\n") if line.strip(" ^")]
    return [mark(FAULT, "\n".join(told).replace(f"{NAME}: ", ""))]


def all_faults(request: Request, fault: Exception) -> list[Mark]:
    """The marks of all that is wrong with a text, of which a fault is known."""
    text = text_in(request, "text")
    if text.lstrip()[:1] in ("{", "[") or not getattr(fault, "line", 0):
        return faults_of(fault)
    try:
        values = _values(request, text)
    except InputFault:
        return faults_of(fault)
    found = faults_in(text) if values is None else member_faults(text, values)
    return [one for each in found for one in faults_of(each)] or faults_of(fault)


def is_family(text: str) -> bool:
    """Whether the text is of a family, as far as that can be seen."""
    return any(line.startswith("family ") for line in text.split("\n"))


def members_told(request: Request) -> list[str]:
    """The members of a family by their values; none where the text is of one protocol."""
    text = text_in(request, "text")
    return [member_name(values) for values in members_of(text, NAME)] if is_family(text) else []


def _values(request: Request, text: str) -> dict[str, int] | None:
    """Which member of a family is worked with; None where the text is of one protocol."""
    found = members_of(text, NAME) if is_family(text) else []
    return found[min(whole_in(request, "member", 0, 0, MEMBER_LIMIT), len(found) - 1)] if found else None


def _load(request: Request) -> Loaded:
    text = text_in(request, "text")
    values = _values(request, text)
    if values is None:
        return load(text, NAME)
    loaded = load_member(text, values, NAME)
    # (its lines are not those of the family's text)
    return replace(loaded, written=replace(loaded.written, leaves=[])) if loaded.written else loaded


def loaded_of(request: Request) -> Loaded:
    """The protocol of a request, with its predicate; InputFault or TextFault where it cannot be used."""
    loaded = _load(request)
    predicate = text_in(request, "predicate").strip()
    if predicate:
        return with_predicate(loaded, predicate)
    return loaded


def marks_of(loaded: Loaded, text: str) -> list[Mark]:
    """Warnings, what stands for nothing in a proof, and predicates that were read otherwise than they stand."""
    out = []
    lines = text.split("\n")
    for told in loaded.warnings:
        found = _LINE.match(told)
        line = int(found[1]) if found else 0
        more = (
            _rewritten(lines[line - 1].rstrip("\r"), loaded.net.names)
            if 0 < line <= len(lines) and READ_AS in told
            else {}
        )
        out.append(
            {
                **mark(
                    NOTE if READ_AS in told else WARNING,
                    told.replace(f"line {line}: ", "", 1) if found else told,
                    line,
                ),
                **more,
            }
        )
    for draft in loaded.drafts or []:
        out += [
            mark(NOTE, f"{note.told}: left out of the proof", note.place.line, note.place.column)
            for note in draft.notes
        ]
    return out


def has_lines(loaded: Loaded) -> bool:
    """Whether moves and nodes have lines in the text: not in JSON, and not in that of a family."""
    return loaded.written is not None and bool(loaded.written.leaves)


def _lines(loaded: Loaded, at: int) -> list[int]:
    """The line of each move of a leaf; empty where the text is JSON."""
    return [place.line for place in loaded.written.leaves[at].places] if has_lines(loaded) and loaded.written else []


def _ways(leaf: Leaf) -> list[list[float]] | None:
    """Where chances or orders are given: states of the initiator and of the responder, what they become, the move and
    its chance."""
    if not leaf.laws:
        return None
    found = leaf_ways(leaf)
    return [[p, q, r, s, t, float(chance)] for (p, q), ways in found.items() for t, (r, s), chance in ways]


def _leaf(loaded: Loaded, at: int, label: str) -> dict[str, Any]:
    leaf: Leaf = loaded.net.leaves[at]
    names = Names(loaded.net.names, leaf)
    taken = first_moves(leaf)
    return {
        "label": label,
        "states": list(leaf.states),
        "shown": [names.state(q) for q in range(len(leaf.states))],
        "outputs": list(leaf.outputs),
        "inputs": list(leaf.inputs),
        "helpers": list(leaf.helpers),
        # (the program's meetings take the first move for two states that changes something)
        "moves": [[*leaf.moves[t], t] for t in leaf.active],
        "ways": _ways(leaf),
        "ordered": [t for t, law in enumerate(leaf.laws) if law.ordered],
        "lines": _lines(loaded, at),
        "hidden": len(leaf.active) - len(taken),
    }


def labels_of(loaded: Loaded) -> list[str]:
    """The names of the leaves."""
    return [state_text(label) for label in loaded.labels] or leaf_names(loaded.net)


def net_value(loaded: Loaded) -> dict[str, Any]:
    """The net for the page."""
    net: Net = loaded.net
    labels = labels_of(loaded)
    return {
        "names": list(net.names),
        "combine": list(net.combine),
        "combineText": combine_text(net.combine, labels),
        "leaves": [_leaf(loaded, i, label) for i, label in enumerate(labels)],
        "predicate": loaded.predicate,
        "assumed": loaded.assumed,
    }


def proof_state(loaded: Loaded) -> str:
    """How much of a proof the text has: `none`, `open` where a part is to be found, or `whole`."""
    if isinstance(loaded, LoadedBundle):
        return "whole"
    drafts = loaded.drafts or []
    if not any(draft.is_given for draft in drafts):
        return "none"
    return "open" if any(draft.holes for draft in drafts) else "whole"


def read_task(request: Request, tell: Tell) -> dict[str, Any]:
    """The net, what is wrong with the text and where, and how much of a proof it has."""
    try:
        loaded = loaded_of(request)
    except (TextFault, InputFault) as fault:
        return {"faults": all_faults(request, fault), "net": None}
    marks = marks_of(loaded, text_in(request, "text"))
    if predicates_differ(loaded):
        marks.append(mark(WARNING, "the leaves' predicates combine to another tree than the whole predicate's"))
    return {
        "faults": marks,
        "net": net_value(loaded),
        "proof": proof_state(loaded),
        "json": text_in(request, "text").lstrip()[:1] in ("{", "["),
        "members": members_told(request),
    }


def text_task(request: Request, tell: Tell) -> dict[str, Any]:
    """The same as a `.pop` file."""
    loaded = loaded_of(request)
    return {"text": loaded_text(loaded, bundle_in(loaded))}
