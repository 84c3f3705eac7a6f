"""Predicates that are given beside a net or written in a `.pop` file, and the leaves' predicates that follow from
them."""
from __future__ import annotations

from dataclasses import replace
from typing import Sequence

from ..faults import InputFault
from ..protocol.combining import leaf_predicates
from ..protocol.nets import Net
from ..protocol.predicatereader import read_predicate
from ..protocol.predicates import Predicate, PredicateFault, canonical_text
from .loaded import Loaded, LoadedNet
from .netreader import predicate_at
from .popsections import PopText
from .relaxed import read_form
from .scanner import Place
from .writer import derived_text

READ_AS = "was read as"


def with_predicate(loaded: Loaded, text: str, parts: Sequence[str] = ()) -> Loaded:
    """The net with this predicate, and its leaves with theirs: those that are named, or those that the combination
    asks for.

    A proof of another predicate is left out.
    """
    net = loaded.net
    form, tree = _form_of(loaded, text)
    if len(parts) not in (0, len(net.leaves)):
        raise InputFault(f"the net has {len(net.leaves)} leaves, and predicates for {len(parts)} are given")
    own = loaded.predicate
    if own is not None and read_predicate(own, net.names) == tree:
        return loaded
    if own is not None:
        loaded.warnings.append(
            f"the file's own predicate `{own}` is passed over, and its proof too: `{form}` was given"
        )
    texts = [_form_of(loaded, part)[0] for part in parts] or _derived_parts(net, form, tree)
    written = replace(loaded.written, drafts=None) if loaded.written else None
    return LoadedNet(loaded.name, net, form, texts, written, loaded.warnings)


def read_given(text: str, names: Sequence[str]) -> tuple[str, Predicate]:
    """A predicate that was given, in the grammar's form, and its tree; InputFault where it is none."""
    try:
        return read_form(text, names)
    except PredicateFault as fault:
        raise InputFault(
            f"fault: pred {fault.why} {fault.at}\n{fault.told}\n    {text}\n    {' ' * fault.at}^"
        ) from None


def _form_of(loaded: Loaded, text: str) -> tuple[str, Predicate]:
    form, tree = read_given(text, loaded.net.names)
    if form != text:
        loaded.warnings.append(f"the predicate {READ_AS}: {form}")
    return form, tree


def _derived_parts(net: Net, text: str, tree: Predicate) -> list[str] | None:
    trees = leaf_predicates(net, tree)
    return None if trees is None else [text if part == tree else canonical_text(part, net.names) for part in trees]


def pop_predicates(file: PopText, net: Net, warnings: list[str]) -> tuple[str | None, list[str] | None]:
    """The predicate, and those of the leaves, where they are there."""

    def read(part: tuple[str, Place]) -> tuple[str, Predicate]:
        form, tree = predicate_at(*part, net.names)
        if form != part[0]:
            warnings.append(f"line {part[1].line}: the predicate {READ_AS}: {form}")
        return form, tree

    parts = [read(leaf.computes)[0] if leaf.computes else None for leaf in file.leaves]
    if file.predicate:
        text, whole = read(file.predicate)
        if any(part is None for part in parts):
            derived = leaf_predicates(net, whole)
            if derived is None:
                return text, None
            return text, [part or canonical_text(tree, net.names) for part, tree in zip(parts, derived)]
        return text, [part for part in parts if part]
    if any(part is None for part in parts):
        if any(parts):
            missing = file.leaves[parts.index(None)]
            raise missing.place.fault("this leaf has no line `computes PREDICATE`, and others do")
        return None, None
    texts = [part for part in parts if part]
    return derived_text(net, texts), texts
