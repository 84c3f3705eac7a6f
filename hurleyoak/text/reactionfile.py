"""Reaction networks written from nets (`.crn`); `networks` reads them back."""
from __future__ import annotations

from fractions import Fraction

from ..faults import InputFault
from ..protocol.naming import state_text
from ..protocol.nets import Net
from ..protocol.reactions import leaf_outcomes
from .networks import TERM
from .writer import head


def network_text(net: Net) -> str:
    """The network of a net with one leaf, with its inputs and its output; rates are chances. InputFault where there is
    none."""
    if len(net.leaves) > 1:
        raise InputFault("a reaction network is one leaf, and the net has several")
    leaf = net.leaves[0]
    rates: dict[tuple[tuple[int, ...], tuple[int, ...]], Fraction] = {}
    for both, outcomes in leaf_outcomes(leaf).items():
        for made, chance in outcomes:
            if sorted(made) != sorted(both):
                key = tuple(sorted(both)), tuple(sorted(made))
                rates[key] = rates.get(key, Fraction(0)) + chance / (1 if both[0] == both[1] else 2)
    names = [state_text(state) for state in leaf.states]
    if odd := [name for name in leaf.states if not TERM.fullmatch(name) or name[0].isdigit()]:
        raise InputFault(f"`{odd[0]}` is no name of a species: letters, digits and `_`, no digit first")
    lines = [head("inputs", "   ".join(f"{name}: {names[q]}" for name, q in zip(net.names, leaf.inputs)))]
    if leaf.helpers:
        lines.append(head("helpers", "  ".join(names[q] for q in leaf.helpers)))
    for (before, after), rate in rates.items():
        sides = [" + ".join(names[q] for q in side) for side in (before, after)]
        lines.append(f"{sides[0]} -> {sides[1]}" + ("" if rate == 1 else f" : {float(rate):.15g}"))
    return "\n".join([*lines, head("yes", " ".join(names[q] for q, b in enumerate(leaf.outputs) if b))]) + "\n"
