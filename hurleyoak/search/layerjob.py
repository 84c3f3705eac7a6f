"""The layers of one leaf: tame ones first; by peeling, by every choice where it has few moves, by SMT where peeling
fails; and given parts kept."""
from __future__ import annotations

from dataclasses import dataclass, field
from typing import Sequence

from ..protocol.nets import Leaf
from ..text.proofreader import LayerDraft
from ..proof.bundles import Layer
from ..proof.tame import is_tame
from .layers import LayerFinder
from .least import lowered
from .limits import clock
from .smt import FOUND, NONE, has_z3, layers_by_smt
from .taming import tame_layers

LEAST_SECONDS = 4.0
COMPARED_MOVES = 60  # of a leaf for which other layers are made too, as they may be tame with a smaller bound
NOT_TAME = "no tame layers were found; without `--tame` others are looked for too"


@dataclass
class NoLayers(Exception):
    """No layers were found: moves that fit into no order, and whether SMT showed that there are no layers."""

    moves: list[int] = field(default_factory=list)
    is_shown: bool = False
    told: str = ""


def find_layers(leaf: Leaf, deadline: float, only_tame: bool = False) -> list[Layer]:
    """Tame layers where there are some, else others unless `only_tame`; with a small bound; or NoLayers."""
    if not leaf.active:
        return []
    tame = tame_layers(leaf, deadline)
    if tame is not None and len(leaf.active) > COMPARED_MOVES:
        return tame
    try:
        layers = other_layers(leaf, deadline)
    except NoLayers as none:
        if tame is None:
            raise NoLayers(none.moves, none.is_shown, NOT_TAME) if only_tame and not none.is_shown else none
        return tame
    if is_tame(leaf, layers):
        return layers if tame is None else min(layers, tame, key=_bound)
    if tame is None and only_tame:
        raise NoLayers([], False, NOT_TAME)
    return layers if tame is None else tame


def _bound(layers: Sequence[Layer]) -> int:
    return sum(layer.spread for layer in layers)


def other_layers(leaf: Leaf, deadline: float) -> list[Layer]:
    """Layers with a small bound, tame or not, or NoLayers."""
    finder = LayerFinder(leaf, deadline)
    groups = finder.peeled(is_patient=not has_z3())
    if groups is not None:
        groups = lowered(finder, groups, min(deadline, clock() + LEAST_SECONDS))
    is_shown, told = False, ""
    if groups is None:
        answer, found = layers_by_smt(finder, deadline)
        is_shown = answer == NONE
        if answer == FOUND and finder.is_valid(found):
            groups = finder.merged(found)
        elif not is_shown and has_z3():
            told = "z3's time was up"
    layers = finder.layers_of(groups) if groups is not None else None
    if layers is None:
        told = "the time was up" if clock() >= deadline else told
        if groups is not None:
            told = told or "their weights are past the limit of the files, or were not found in time"
        raise NoLayers(finder.conflict(), is_shown, told)
    return layers


def fill_layers(leaf: Leaf, drafts: Sequence[LayerDraft], deadline: float, only_tame: bool = False) -> list[Layer]:
    """The layers that are given, with weights found for those that have none; NoLayers where a layer has none, or
    where they aren't tame and have to be."""
    finder = LayerFinder(leaf, deadline)
    out = []
    for n, draft in enumerate(drafts):
        if draft.weights is not None:
            out.append(Layer(draft.moves, draft.weights))
            continue
        active = frozenset(t for t in draft.moves if t in finder.changes)
        found = finder.weights(active, whole=True) if active else (0.0, [0.0] * len(leaf.states))
        if found is None:
            finder.stuck = active
            raise NoLayers(finder.conflict(), False, f"the moves of layer {n} have no weights that all of them lower")
        out.append(Layer(draft.moves, tuple(int(round(w)) for w in found[1])))
    if only_tame and not is_tame(leaf, out):
        raise NoLayers([], False, "the layers that are given aren't tame; `--anew` looks for others")
    return out
