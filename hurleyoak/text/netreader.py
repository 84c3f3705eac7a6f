"""From the sections of a `.pop` file to its net: states in order, wildcards written out, names looked up."""
from __future__ import annotations

import re
from typing import Any

from .relaxed import read_form
from ..protocol.nets import (
    MOVE_LIMIT,
    FormatFault,
    Item,
    Leaf,
    Move,
    Net,
    is_silent,
    is_state_name,
    is_variable_name,
    net_of,
    pair,
)
from ..protocol.laws import PLAIN, Law
from ..protocol.reactions import too_likely
from .popsections import ANY, LeafText, MoveText, Named, PopText
from ..protocol.predicates import Predicate, PredicateFault
from .madeleaf import MadeLeaf
from .scanner import Line, Place


_COUNTED = re.compile(r"([0-9]+)(\S*)")


def state_order(text: LeafText) -> dict[str, int]:
    """The states' numbers: those of `states` first, then the others as they are first mentioned."""
    out: dict[str, int] = {}
    for named in [*text.states, *text.mentions]:
        if named.name not in out:
            if not is_state_name(named.name):
                raise named.place.fault(
                    f"`{named.name}` is no name of a state: 1 to 32 printed ASCII characters, without blanks and `/`"
                )
            out[named.name] = len(out)
    seen: set[str] = set()
    for named in text.states:
        if named.name in seen:
            raise named.place.fault(f"state `{named.name}` was listed before")
        seen.add(named.name)
    if seen:
        for named in text.mentions:
            if named.name not in seen:
                raise named.place.fault(f"`{named.name}` is none of the states that the line `states` lists")
    _helpers_stand_elsewhere(text)
    return out


def _helpers_stand_elsewhere(text: LeafText) -> None:
    """Fails at a helper like `2L` or `3`, which was meant as a number, and is a state that nothing else names."""
    helpers = {id(named) for named in text.helpers}
    others = {named.name for named in text.mentions if id(named) not in helpers} | {
        named.name for named in text.states
    }
    for named in text.helpers:
        found = _COUNTED.fullmatch(named.name)
        if found and named.name not in others:
            told = f"`{found[1]}*{found[2]}`" if found[2] else f"`{found[1]}*STATE`"
            raise named.place.fault(
                f"no other line names a state `{named.name}`: {found[1]} helpers in one state are written {told}"
            )


def _wild_moves(move: MoveText, numbers: dict[str, int], taken: set[tuple[int, int]]) -> list[Move]:
    """The moves that a wildcard stands for: one for each state that fits, changes something and has no move with its
    partner yet."""
    if move.states[0] == move.states[1] == ANY:
        raise move.places[1].fault("expected a state: only one of the two that meet may be `*`")
    if ANY not in move.states[:2]:
        raise move.places[2 + move.states[2:].index(ANY)].fault(
            "`*` on the right is the state of the `*` on the left, and there is none"
        )
    out = []
    for q in numbers.values():
        p0, p1, p2, p3 = (q if name == ANY else numbers[name] for name in move.states)
        made = (p0, p1, p2, p3)
        if not is_silent(made) and pair(p0, p1) not in taken:
            out.append(made)
    return out


def _moves(text: LeafText, numbers: dict[str, int]) -> tuple[list[Move], list[Place], list[Law]]:
    taken = {pair(numbers[m.states[0]], numbers[m.states[1]]) for m in text.moves if not m.is_wild}
    moves: list[Move] = []
    places: list[Place] = []
    laws: list[Law] = []
    for move in text.moves:
        if move.is_wild:
            made = _wild_moves(move, numbers, taken)
            taken |= {pair(m[0], m[1]) for m in made}
        else:
            p, q, r, s = (numbers[name] for name in move.states)
            made = [(p, q, r, s)]
        moves += made
        places += [move.places[0]] * len(made)
        laws += [move.law] * len(made)
        if len(moves) > MOVE_LIMIT:
            raise move.places[0].fault(_LIMITS["moves"])
    return moves, places, laws


def _within_one(leaf: Leaf, places: list[Place]) -> None:
    """Fails at a move for which the others with the same states leave no chance."""
    for t in range(len(leaf.laws)):
        if too_likely(leaf, t):
            raise places[t].fault(
                "the moves for these states have chances of more than 1 in all, or of 1 and one without a chance"
            )


def _outputs(text: LeafText, numbers: dict[str, int]) -> tuple[bool, ...]:
    if not text.outputs:
        raise text.place.fault("the leaf has no line `yes STATES`, with the states that output true")
    said: dict[str, bool] = {}
    rest: bool | None = None
    for value, states, place in text.outputs:
        for named in states:
            if named.name == ANY:
                rest = value
            elif said.setdefault(named.name, value) != value:
                raise named.place.fault(f"state `{named.name}` is under `yes` and under `no`")
    kinds = {value for value, _, _ in text.outputs}
    if rest is None and len(kinds) == 2:
        for name in numbers:
            if name not in said:
                raise text.outputs[-1][2].fault(f"state `{name}` is neither under `yes` nor under `no`")
    default = rest if rest is not None else False if True in kinds else True
    return tuple(said.get(name, default) for name in numbers)


def _inputs(text: LeafText, variables: list[str], numbers: dict[str, int]) -> tuple[int, ...]:
    starts: dict[str, int] = {}
    for variable, state in text.inputs:
        if variable.name not in variables:
            raise variable.place.fault(f"`{variable.name}` is no variable; there are {', '.join(variables)}")
        if variable.name in starts:
            raise variable.place.fault(f"variable `{variable.name}` was there before")
        starts[variable.name] = numbers[state.name]
    for name in variables:
        if name not in starts:
            raise text.place.fault(
                f"this leaf doesn't say in which state variable `{name}` starts: add `inputs {name}: STATE`"
            )
    return tuple(starts[name] for name in variables)


def _variables(text: PopText) -> list[str]:
    named = text.variables or [variable for variable, _ in text.leaves[0].inputs]
    if not named:
        raise text.leaves[0].place.fault("expected a line `inputs x: A`, with a state for each input variable")
    out: list[str] = []
    for one in named:
        if not is_variable_name(one.name):
            raise one.place.fault(
                f"`{one.name}` is no name of a variable: 1 to 32 letters, digits and `_`, no digit first, and not"
                " `mod`"
            )
        if one.name in out:
            raise one.place.fault(f"variable `{one.name}` was there before")
        out.append(one.name)
    return out


def make_leaf(text: LeafText, variables: list[str]) -> MadeLeaf:
    """The leaf of a section, or a TextFault."""
    numbers = state_order(text)
    moves, places, laws = _moves(text, numbers)
    helpers = [numbers[h.name] for h in text.helpers for _ in range(h.number)]
    told = () if all(law == PLAIN for law in laws) else tuple(laws)
    leaf = Leaf(
        tuple(numbers), tuple(moves), _inputs(text, variables, numbers), _outputs(text, numbers), tuple(helpers), told
    )
    _within_one(leaf, places)
    return MadeLeaf(leaf, places, numbers)


def _combination(line: Line, names: list[str]) -> list[Item]:
    """Reads `majority && !flock` into postfix."""

    def unit() -> list[Item]:
        if line.takes("!"):
            return [*unit(), "not"]
        if line.takes("("):
            inside = either()
            line.needs(")")
            return inside
        place = line.place()
        name = line.name("a leaf's name, `!` or `(`")
        if name not in names:
            raise place.fault(f"`{name}` is no leaf; there are {', '.join(names)}")
        return [names.index(name)]

    def both() -> list[Item]:
        out = unit()
        while line.takes("&&"):
            out += [*unit(), "and"]
        return out

    def either() -> list[Item]:
        out = both()
        while line.takes("||"):
            out += [*both(), "or"]
        return out

    out = either()
    line.must_end()
    return out


def make_net(text: PopText) -> tuple[Net, list[MadeLeaf]]:
    """The net of a file, and its leaves with their places; or a TextFault."""
    if not text.leaves:
        place = text.combine[1] if text.combine else Place(1, 1, "")
        raise place.fault("the file has no leaf")
    variables = _variables(text)
    has_helpers = any(leaf.helpers for leaf in text.leaves)
    form = text.format[0] if text.format else 2 if has_helpers else 1
    if form == 1 and has_helpers:
        place = next(leaf.helpers[0].place for leaf in text.leaves if leaf.helpers)
        raise place.fault("a net of format 1 has no helpers: write `format 2`, or leave that line out")
    made = [make_leaf(leaf, variables) for leaf in text.leaves]
    combine: list[Item] = [0]
    if text.combine:
        combine = _combination(text.combine[0], [leaf.name for leaf in text.leaves])
    elif len(made) > 1:
        raise text.leaves[-1].place.fault(
            "several leaves need a line `combine`, as in `combine "
            + " && ".join(leaf.name for leaf in text.leaves)
            + "`"
        )
    net = Net(tuple(variables), tuple(m.leaf for m in made), tuple(combine), form)
    _within_limits(net.value(), text, made)
    return net, made


def _within_limits(value: dict[str, Any], text: PopText, made: list[MadeLeaf]) -> None:
    """The rules of the net file that the text alone doesn't settle: how many there may be of what."""
    try:
        net_of(value)
    except FormatFault as fault:
        parts = fault.path.split("/")
        at = int(parts[2]) if len(parts) > 2 and parts[1] == "leaves" else 0
        place = text.leaves[at].place
        if parts[1] == "combine" and text.combine:
            place = text.combine[1]
        if parts[1] == "format" and text.format:
            place = text.format[1]
        raise place.fault(
            _LIMITS.get(
                parts[3] if len(parts) > 3 else parts[1],
                f"the net breaks a rule of the file at {fault.path}: {fault.why}",
            )
        ) from None


_LIMITS = {
    "format": "the format is 1 or 2",
    "vars": "a net has at most 16 variables",
    "leaves": "a net has at most 8 leaves, and at most 4 where one has more than 256 states",
    "states": "a leaf has at most 512 states",
    "moves": "a leaf has at most 65,536 moves",
    "helpers": "a leaf has at most 1,024 helpers, as many as the first leaf",
    "combine": "a combination has at most 1,024 items and is at most 65 deep",
}


def predicate_at(text: str, place: Place, variables: tuple[str, ...]) -> tuple[str, Predicate]:
    """A predicate that stands at a place, in the grammar's form, and its tree; or a TextFault at the part that is
    wrong."""
    try:
        return read_form(text, variables)
    except PredicateFault as fault:
        raise Place(place.line, place.column + fault.at, place.quoted).fault(fault.told) from None
