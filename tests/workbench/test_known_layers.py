"""Nets whose layers are known by hand: the program certifies those, and `find` finds some without them."""
from __future__ import annotations

import pytest

from hurleyoak.engine import program
from hurleyoak.proof.bundles import Bundle
from hurleyoak.proof.checking import layer_fault, verdict
from hurleyoak.protocol.nets import Leaf
from hurleyoak.text.loaded import LoadedNet, Written
from hurleyoak.text.proofreader import LayerDraft, ProofDraft

from .conftest import needs_program

pytest.importorskip("scipy")
pytest.importorskip("z3")

from bench.finder import majorities  # noqa: E402
from bench.finder.making import Case  # noqa: E402
from hurleyoak.search.finding import find  # noqa: E402
from hurleyoak.search.layerjob import find_layers  # noqa: E402

SECONDS = 300.0
SPLIT = [majorities.cancel_split(most) for most in (1, 2)]


def by_hand(leaf: Leaf) -> list[LayerDraft]:
    """Layers of cancelling and splitting: A and B meet; levels or errors; to a; to b; signs to +; signs to -."""
    layers: list[list[int]] = [[] for _ in range(6)]
    for t in leaf.active:
        before, after = ([leaf.states[q] for q in ends] for ends in (leaf.moves[t][:2], leaf.moves[t][2:]))
        letters, levels = ([sorted(s[i] for s in some) for some in (before, after)] for i in (-1, -3))
        signs = [sum(s.startswith("+z") for s in some) for some in (before, after)]
        facts = (
            letters[0] == ["A", "B"],
            levels[0] != levels[1],
            letters[1].count("a") > letters[0].count("a"),
            letters[1].count("b") > letters[0].count("b"),
            signs[1] > signs[0],
            True,
        )
        layers[facts.index(True)].append(t)
    return [LayerDraft(tuple(moves), None) for moves in layers if moves]


def certified(case: Case, draft: ProofDraft | None = None) -> Bundle:
    """What is found for a net, certified by the workbench's own reading and by the program."""
    written = None if draft is None else Written(leaves=[], labels=[], assumed=[], drafts=[draft])
    loaded = LoadedNet(case.name, case.net, case.predicate, [case.predicate], written)
    found = find(loaded, SECONDS, 0.0, jobs=1)
    assert found.bundle is not None, [failure.told for failure in found.failures]
    assert verdict(found.bundle).startswith("certified")
    return found.bundle


def test_states_and_moves_of_the_family() -> None:
    sizes = [(len(case.net.leaves[0].states), len(case.net.leaves[0].moves)) for case in SPLIT]
    assert sizes == [(16, 98), (34, 489)]


@needs_program
@pytest.mark.parametrize("case", SPLIT, ids=lambda case: str(case.name))
def test_layers_by_hand_are_certified(case: Case) -> None:
    draft = ProofDraft(layers=by_hand(case.net.leaves[0]))
    answer = program.check(certified(case, draft).line())
    assert answer.status == program.DONE, answer.first_line


@needs_program
@pytest.mark.parametrize("case", SPLIT, ids=lambda case: str(case.name))
def test_layers_are_found_that_are_certified(case: Case) -> None:
    leaf = case.net.leaves[0]
    layers = find_layers(leaf, 1e12)
    assert layer_fault(leaf, layers) is None
    drafts = ProofDraft(layers=[LayerDraft(layer.moves, layer.weights) for layer in layers])
    answer = program.check(certified(case, drafts).line())
    assert answer.status == program.DONE, answer.first_line
