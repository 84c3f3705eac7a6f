"""Crowds by arrays: the same answers as crowd by crowd."""
from __future__ import annotations

from pathlib import Path

import pytest
from hypothesis import given, settings
from hypothesis.strategies import integers

pytest.importorskip("numpy")

from hurleyoak.protocol.nets import Leaf, Net  # noqa: E402
from hurleyoak.protocol.predicatereader import read_predicate  # noqa: E402
from hurleyoak.search.explore import explore, flaw_at, inputs_of  # noqa: E402
from hurleyoak.search.packed import Packed, packed_flaw  # noqa: E402
from hurleyoak.search.whole import system_of  # noqa: E402
from hurleyoak.text.files import load, load_path  # noqa: E402

from .conftest import EXAMPLES  # noqa: E402
from .test_files import nets  # noqa: E402
from .test_find import ENDLESS, FLIPPING, HIDDEN, RESTLESS, WRONG  # noqa: E402

LIMIT = 5_000
FOUND = sorted((EXAMPLES / "found").glob("*.pop"))


@pytest.mark.parametrize("path", FOUND, ids=lambda path: str(path.stem))
def test_examples_have_the_same_answers(path: Path) -> None:
    loaded = load_path(str(path))
    system, tree = system_of(loaded.net), loaded.whole_tree()
    if not isinstance(system, Leaf):
        return
    for agents in (2, 5, 7):
        for counts in list(inputs_of(len(system.inputs), agents))[:8]:
            for other in (tree, read_predicate(f"{loaded.net.names[0]} >= 3", loaded.net.names)):
                assert packed_flaw(system, other, counts, 1e12, LIMIT) == flaw_at(system, other, counts, 1e12, LIMIT)


@pytest.mark.parametrize(
    "text", [WRONG, ENDLESS, RESTLESS, FLIPPING, HIDDEN], ids=["wrong", "endless", "restless", "flipping", "hidden"]
)
def test_flaws_of_each_kind_are_the_same(text: str) -> None:
    loaded = load(text, "x")
    system, tree = system_of(loaded.net), loaded.whole_tree()
    assert isinstance(system, Leaf)
    for agents in range(2, 8):
        for counts in inputs_of(len(system.inputs), agents):
            assert packed_flaw(system, tree, counts, 1e12, LIMIT) == flaw_at(system, tree, counts, 1e12, LIMIT)


@settings(deadline=None, max_examples=150)
@given(nets(), integers(0, 4), integers(0, 4))
def test_any_net_has_the_same_answers(net: Net, first: int, second: int) -> None:
    leaf = net.leaves[0]
    counts = (first, second, *([1] * len(leaf.inputs)))[: len(leaf.inputs)]
    if sum(counts) + len(leaf.helpers) < 2 or sum(counts) + len(leaf.helpers) > 7:
        return
    tree = read_predicate(f"{net.names[0]} >= 1", net.names)
    assert packed_flaw(leaf, tree, counts, 1e12, 2_000) == flaw_at(leaf, tree, counts, 1e12, 2_000)
    graph = Packed(leaf, counts)
    if graph.built(2_000, 1e12):
        assert graph.is_exact and graph._is_right()


def test_without_a_number_of_agents_the_time_is_used() -> None:
    loaded = load_path(str(EXAMPLES / "majority" / "majority.pop"))
    flaw, tried = explore(system_of(loaded.net), loaded.whole_tree(), None, 2.0)
    assert flaw is None and tried.agents > 10
