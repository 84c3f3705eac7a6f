"""The `.pop` format: both ways are inverse; faults name line, column and what was expected; warnings."""
from __future__ import annotations

import json
from pathlib import Path

import pytest

from hurleyoak.faults import InputFault
from hurleyoak.text.files import load
from hurleyoak.text.loaded import strict_bundle
from hurleyoak.protocol.nets import Leaf, Net, compact, net_of
from hurleyoak.proof.bundles import bundle_of
from hurleyoak.text.writer import combine_text, text_of

from .conftest import COMPILED, EXAMPLES, bundle_at, compiled, example_paths, needs_program

MAJORITY = (EXAMPLES / "majority" / "majority.pop").read_text()
NET = "inputs x: A  y: B\nA + B -> a + b\nyes A a\n"


@pytest.mark.parametrize("path", example_paths(), ids=lambda p: f"{p.parent.name}/{p.name}")
def test_bundles_are_read_back(path: Path) -> None:
    bundle = bundle_at(path)
    text = text_of(bundle.net, bundle)
    assert strict_bundle(load(text, "x")) == bundle
    assert load(text_of(bundle.net), "x").net == bundle.net
    assert bundle_of(bundle.value()) == bundle
    pretty = json.dumps(bundle.value(), indent=2).replace("\n", "\r\n")
    assert strict_bundle(load(pretty, "x")) == bundle
    assert load(json.dumps(bundle.net.value(), indent=4), "x").net == bundle.net


@needs_program
@pytest.mark.parametrize("text", COMPILED)
def test_compiled_bundles_are_read_back_byte_for_byte(text: str) -> None:
    bundle = compiled(text)
    assert strict_bundle(load(text_of(bundle.net, bundle), "x")).line() == bundle.line()


@pytest.mark.parametrize("folder", sorted(p.parent.name for p in EXAMPLES.glob("*/net.json")))
def test_each_example_has_its_text(folder: str) -> None:
    text = (EXAMPLES / folder / f"{folder}.pop").read_text()
    loaded = load(text, folder)
    assert loaded.net == net_of(json.loads((EXAMPLES / folder / "net.json").read_text()))
    assert strict_bundle(loaded) == bundle_at(EXAMPLES / folder / "bundle.json")
    assert all("no agent ever comes to" in told for told in loaded.warnings)


# the text, and what is said of it: line and column first
FAULTS = [
    ("", "1:1: expected a protocol"),
    ("# nothing\n", "1:1: expected a protocol"),
    (NET + "A + B > a + b\n", "4:7: expected `->`, found `>`"),
    (NET + "A B -> a + b\n", "4:3: expected `+` or `,`, and the other state, found `B`"),
    (NET + "A + B -> a\n", "4:11: expected `+` or `,`, and the other state, and the line ends here"),
    (NET + "A + B -> a + b c\n", "4:16: expected the end of the line, found `c`"),
    (NET + "A + B -> a + \n", "4:13: expected a state, and the line ends here"),
    (NET + "A + -> a + b\n", "4:5: expected a state, found `-`"),
    (NET + "* + * -> a + b\n", "4:5: expected a state: only one of the two that meet may be `*`"),
    (NET + "A + B -> * + b\n", "4:10: `*` on the right is the state of the `*` on the left, and there is none"),
    ("inputs x A\nyes A\n", "1:10: expected `:` and the state in which it starts, found `A`"),
    ("inputs : A\nyes A\n", "1:8: expected a variable, as in `x: A`, found `:`"),
    ("inputs x: A x: B\nyes A\n", "1:13: variable `x` was there before"),
    ("inputs mod: A\nyes A\n", "1:8: `mod` is no name of a variable"),
    ("variables x z\ninputs x: A\nyes A\n", "2:1: this leaf doesn't say in which state variable `z` starts"),
    ("variables x\ninputs x: A q: A\nyes A\n", "2:13: `q` is no variable; there are x"),
    ("A + A -> b + b\nyes b\n", "1:1: expected a line `inputs x: A`"),
    ("inputs x: A\nA + A -> b + b\n", "1:1: the leaf has no line `yes STATES`"),
    ("inputs x: A\nyes A\nno A\n", "3:4: state `A` is under `yes` and under `no`"),
    ("inputs x: A\nA + A -> b + c\nyes A\nno b\n", "4:1: state `c` is neither under `yes` nor under `no`"),
    ("states A A\ninputs x: A\nyes A\n", "1:10: state `A` was listed before"),
    ('inputs x: "A/B"\nyes A\n', "1:11: `A/B` is no name of a state"),
    ("format 3\ninputs x: A\nyes A\n", "1:1: the format is 1 or 2"),
    ("format x\ninputs x: A\nyes A\n", "1:8: expected 1 or 2, found `x`"),
    ("inputs x: A\nhelpers L*A\nyes A\n", "2:9: expected a number before `*`, found `L`"),
    (NET + "computes x - z < 0\n", "4:14: `z` is no variable; there are x, y"),
    (NET + "computes x - y\n", "4:15: expected one of `<`"),
    (NET + "computes x - y << 0\n", "4:17: expected a variable or a number, found `<`"),
    (NET + "computes x = y % 3\n", "4:16: `%` belongs on the left of the sign"),
    (NET + "computes x = 1 mod 1\n", "4:20: a modulus is 2 to 200"),
    (NET + "computes x < 99999999999999\n", "4:14: the constant is at most"),
    ("leaf a\n" + NET + "leaf a\n" + NET, "5:6: a leaf `a` was there before"),
    ("leaf a\n" + NET + "leaf b\n" + NET, "5:6: several leaves need a line `combine`"),
    ("combine a && c\nleaf a\n" + NET + "leaf b\n" + NET, "1:14: `c` is no leaf; there are a, b"),
    ("combine a &&\nleaf a\n" + NET, "1:13: expected a leaf's name, `!` or `(`, and the line ends here"),
    ("combine (a\nleaf a\n" + NET, "1:11: expected `)`, and the line ends here"),
    (NET + "leaf a\n", "4:1: in a file with `leaf` lines every line of a leaf comes after one"),
    (NET + "layer A: 1\n  A + B -> a + b\n", "4:1: a proof needs a line `computes PREDICATE` before it"),
    (NET + "computes x < 1\nlayer A 1\n", "5:9: expected `:` and the state's weight, found `1`"),
    (NET + "computes x < 1\nlayer A: one\n", "5:10: expected a weight, found `one`"),
    (NET + "computes x < 1\nlayers\n", "5:7: expected `?`, for layers that are to be found, or `none`"),
    (NET + "computes x < 1\nwhen maybe\n", "5:6: expected `true` or `false`, found `maybe`"),
    (NET + "computes x < 1\nwhen true\n  ?\nwhen true\n  ?\n", "7:1: a tree for true was there before"),
    (MAJORITY.replace("present A", "presents A", 1), "21:3: expected a node"),
    (MAJORITY.replace("present A", "present C", 1), "21:11: `C` is no state of this leaf"),
    (MAJORITY.replace("open predicate", "open predikate", 1), "20:8: no fact `predikate` here; there are `predicate`"),
    (
        MAJORITY.replace("lin wrong - absent(B)", "lin wrong - absent(A)", 1),
        "23:23: no fact `absent(A)` here: no state that is known to be there in this branch reacts with it",
    ),
    (
        MAJORITY.replace("    absent: lin -flow(A)", "    there: lin -flow(A)", 1),
        "22:5: expected `absent:`, the next case of `present A` on line 21",
    ),
    (
        MAJORITY.replace("    here: lin wrong", "  here: lin wrong", 1),
        "23:3: expected the case `here` of `present A` on line 21, deeper than it",
    ),
    (
        MAJORITY.replace("    here: lin wrong - absent(B) - absent(b)\n", "", 1),
        "19:1: the case `here` of `present A` on line 21 has no node",
    ),
    (
        MAJORITY.replace("lin wrong - absent(B)", "lin wrong + 3 - absent(B)", 1),
        "23:11: a sum of facts has no number alone",
    ),
    (MAJORITY.replace("trap {A, b}", "trap A, b", 1), "30:18: expected `{` and states, found `A`"),
    (MAJORITY.replace("trap {A, b}", "trap {A, b", 1), "30:23: expected `,` or `}`, and the line ends here"),
    (
        MAJORITY.replace("lin leaves{A, b}", "residue 1: leaves{A, b}", 1),
        "31:17: expected `residue`, a modulus of 2 to 200, and `:`",
    ),
    (MAJORITY + "  lin 0\n", "35:3: this node is one too many"),
    (
        MAJORITY.replace("never[A + B -> a + b]", "never[A + B -> b + b]", 1),
        "32:46: `A + B -> b + b` is no move of this leaf",
    ),
]


@pytest.mark.parametrize("text, told", FAULTS, ids=[told for _, told in FAULTS])
def test_faults_say_where_and_what(text: str, told: str) -> None:
    with pytest.raises(InputFault) as caught:
        strict_bundle(load(text, "f"))
    shown = str(caught.value)
    assert shown.startswith(f"f:{told}")
    first, quoted, caret = shown.split("\n")
    line, column = (int(n) for n in first.split(":")[1:3])
    lines = text.split("\n")
    assert quoted == "    " + (lines[line - 1] if "expected a protocol" not in told else "")
    assert caret == " " * (column + 3) + "^"


WARNINGS = [
    (NET + "B + A -> b + a\n", "line 4: `B + A -> b + a` is listed twice, first on line 2"),
    (
        NET + "B + A -> b + b\n",
        "line 4: `B + A -> b + b` is hidden by `A + B -> a + b` (line 2): a run takes the first",
    ),
    (NET + "c + A -> A + A\n", "no agent ever comes to state c"),
]


@pytest.mark.parametrize("text, told", WARNINGS)
def test_warnings(text: str, told: str) -> None:
    loaded = load(text, "f")
    assert len(loaded.warnings) == 1 and loaded.warnings[0].startswith(told)
    assert len(load(compact(loaded.net.value()), "f").warnings) == 1


def test_helpers_of_format_1() -> None:
    """By names they are a fault: the text would say more than the net that is certified. In JSON they are ignored."""
    for text in (NET + "format 1\nhelpers A\n", "format 1\nhelpers 2*A\n" + NET):
        with pytest.raises(InputFault) as caught:
            load(text, "f")
        assert "a net of format 1 has no helpers: write `format 2`" in str(caught.value)
    value = load(NET, "f").net.value()
    value["leaves"][0]["helpers"] = [0]
    assert load(compact(value), "f").warnings == ['`helpers` in a net of format 1 is ignored: it needs `"format":2`']


def test_a_silent_move_hides_none() -> None:
    # of the moves for A and B the first that changes something is taken
    net = NET.replace("A + B -> a + b\n", "A + B -> B + A\nA + B -> a + b\n")
    assert net != NET and load(net, "f").warnings == []


def test_wildcards_write_one_move_for_each_state_that_fits() -> None:
    net = load("inputs x: 4  y: 1\n1 + 1 -> 2 + 0\n4 + * -> 4 + 4\nyes 4\n", "f").net
    leaf = net.leaves[0]
    assert leaf.states == ("4", "1", "2", "0")
    assert leaf.moves == ((1, 1, 2, 3), (0, 1, 0, 0), (0, 2, 0, 0), (0, 3, 0, 0))
    keeps = load("inputs x: A\n* , A -> * , B\nA + C -> C + C\nyes B\n", "f").net.leaves[0]
    assert keeps.moves == ((0, 0, 0, 1), (1, 0, 1, 1), (0, 2, 2, 2))


def test_commas_and_blanks_are_free() -> None:
    one = load("inputs x:A,y:B\nA,B->a,b\nyes A,a\n", "f").net
    assert one == load(NET, "f").net


def test_names_that_are_not_plain_are_quoted() -> None:
    leaf = Leaf(
        ("a+b", '"', "->", "#x", "-1", "yes", "\\"), ((0, 1, 2, 3), (4, 5, 6, 6)), (0,), (True, False) * 3 + (True,)
    )
    net = Net(("x",), (leaf,), (0,))
    assert load(text_of(net), "f").net == net


@pytest.mark.parametrize(
    "combine",
    [
        (0,),
        (0, "not"),
        (0, 1, "and", 2, "or"),
        (0, 1, 2, "or", "and"),
        (0, 1, "or", "not", 2, "and"),
        (0, 1, 2, "and", "and"),
        (0, "not", "not"),
    ],
)
def test_combinations_are_read_back(combine: tuple[int | str, ...]) -> None:
    leaf = Leaf(("A",), (), (0,), (True,))
    net = Net(("x",), (leaf,) * 3, combine)
    assert load(text_of(net), "f").net == net
    assert combine_text(combine, ["a", "b", "c"])


def test_the_whole_predicate_is_derived() -> None:
    text = (
        "combine one && !two\nleaf one\n" + NET + "computes y - x < 0\nleaf two\n" + NET + "computes x >= 2 || y = 1\n"
    )
    assert load(text, "f").predicate == "y - x < 0 && !(x >= 2 || y = 1)"
