"""Nets, bundles and inputs: what is refused, with the program's words."""
from __future__ import annotations

import copy
import json
import random
from typing import Any

import pytest
from hypothesis import given, settings
from hypothesis import strategies as st

from hurleyoak.engine import program
from hurleyoak.faults import InputFault
from hurleyoak.text.files import load
from hurleyoak.text.loaded import strict_bundle
from hurleyoak.protocol.nets import FormatFault, Leaf, Net, compact, net_of
from hurleyoak.proof.bundles import (
    Bundle,
    First,
    Layer,
    LeafProof,
    Linear,
    Open,
    Present,
    Residue,
    Siphon,
    Split,
    Trap,
    Twin,
    bundle_of,
)
from hurleyoak.text.writer import text_of

from .conftest import CHANGES, EXAMPLES, bundle_at, needs_program


def damaged(value: Any, rng: random.Random) -> Any:
    """A JSON value with one place made another kind of value, out of range, too short or too long."""
    out = copy.deepcopy(value)
    place, at = out, rng.choice(list(out))
    while isinstance(place[at], (dict, list)) and place[at] and rng.random() < 0.85:
        place = place[at]
        at = rng.choice(list(place)) if isinstance(place, dict) else rng.randrange(len(place))
    kind = rng.randrange(6)
    if kind == 0:
        del place[at]
    elif kind == 1 and isinstance(place[at], list):
        place[at] = place[at] * 2
    else:
        place[at] = rng.choice([None, True, -1, 3, 99, 1.5, "x", "and", [], {}, 1 << 64, "a b", "x < 1 <"])
    return out


@needs_program
def test_damaged_bundles_are_refused_with_the_program_s_words() -> None:
    sources = [bundle_at(EXAMPLES / name / "bundle.json").value() for name in ("helper", "or", "remainder")]
    for seed in range(CHANGES):
        value = damaged(sources[seed % 3], random.Random(seed))
        line = program.check(compact(value)).first_line
        try:
            bundle_of(value)
        except FormatFault as fault:
            assert str(fault) == line, (seed, fault)
        else:
            assert not line.startswith("fault"), seed


@pytest.mark.parametrize(
    "text, told",
    [
        ('{\n "net": 3,\n}', "f:3:1: this is no JSON"),
        ("{}", "fault: format /format kind"),
        ('{"net":{}}', "fault: format /format kind"),
        ('{"net":{},"proof":[]}', "fault: format /net/format kind"),
        ((EXAMPLES / "majority" / "net.json").read_text() + "x <\n", "fault: pred syntax 3"),
        (
            (EXAMPLES / "and" / "net.json").read_text() + "x < 1 || y < 1\n",
            "f: the combination and the predicate differ in shape",
        ),
    ],
)
def test_refused(text: str, told: str) -> None:
    with pytest.raises(InputFault) as caught:
        load(text, "f").part_trees()
    assert str(caught.value).startswith(told)


def test_a_net_with_a_predicate_behind_it() -> None:
    text = (EXAMPLES / "and" / "net.json").read_text()
    loaded = load(text + "x >= 3 && x + 2*y = 1 mod 3\n", "f")
    assert loaded.parts == ["-x < -2", "x + 2*y = 1 mod 3"]
    with pytest.raises(InputFault):
        strict_bundle(loaded)


@st.composite
def nets(draw: Any) -> Net:
    """Nets of one or two leaves over two variables."""
    names = st.text(st.sampled_from('AaBb01-+>#"\\*(.:'), min_size=1, max_size=4)
    leaves = []
    helpers = draw(st.integers(0, 2))
    for _ in range(draw(st.integers(1, 2))):
        states = draw(st.lists(names, min_size=1, max_size=5, unique=True))
        number = st.integers(0, len(states) - 1)
        moves = draw(st.lists(st.tuples(number, number, number, number), max_size=6))
        leaves.append(
            Leaf(
                tuple(states),
                tuple(moves),
                (draw(number), draw(number)),
                tuple(draw(st.booleans()) for _ in states),
                tuple(draw(number) for _ in range(helpers)),
            )
        )
    return Net(
        ("x", "y"),
        tuple(leaves),
        (0,) if len(leaves) == 1 else (0, 1, draw(st.sampled_from(["and", "or"]))),
        2 if helpers else draw(st.sampled_from([1, 2])),
    )


@st.composite
def bundles(draw: Any) -> Bundle:
    """Bundles with any nodes, most of them not valid."""
    net = draw(nets())
    number, size = st.integers(0, 12), st.integers(-3, 3)
    terms = st.lists(st.tuples(number, size), max_size=4).map(lambda t: tuple(t))
    states = st.lists(st.integers(0, 5), max_size=4, unique=True).map(lambda s: tuple(sorted(s)))
    rows = st.lists(st.tuples(st.integers(0, 9), size), max_size=3, unique_by=lambda t: t[0]).map(
        lambda t: tuple(sorted(t))
    )
    node = st.one_of(
        st.builds(Linear, terms),
        st.builds(Residue, st.integers(2, 5), terms),
        st.builds(Split, rows, size),
        st.builds(Present, st.integers(0, 5)),
        st.builds(Twin, st.integers(0, 5)),
        st.builds(Trap, states),
        st.builds(Siphon, states),
        st.builds(First, states),
        st.builds(Open, number),
    )
    tree = st.lists(node, max_size=6).map(lambda t: tuple(t))
    parts = []
    for leaf in net.leaves:
        weights = st.lists(size, min_size=len(leaf.states), max_size=len(leaf.states)).map(lambda t: tuple(t))
        layer = st.builds(Layer, st.lists(st.integers(0, 7), max_size=4).map(lambda t: tuple(t)), weights)
        pred = draw(st.sampled_from(["x < 1", "x - y >= 2 && !(x = 1 mod 3)"]))
        parts.append(LeafProof(pred, tuple(draw(st.lists(layer, max_size=2))), draw(tree), draw(tree)))
    return Bundle(net, draw(st.sampled_from(["x < 1", "(x < 1 && y < 2)"])), tuple(parts))


@settings(deadline=None, max_examples=200)
@given(bundles())
def test_any_bundle_is_written_and_read_back(bundle: Bundle) -> None:
    text = text_of(bundle.net, bundle)
    assert strict_bundle(load(text, "f")) == bundle
    assert bundle_of(json.loads(bundle.line())) == bundle
    assert net_of(bundle.net.value()) == bundle.net
    assert load(text_of(bundle.net), "f").net == bundle.net
