"""Names for the states of the program's leaf of powers, which the program numbers: by what an agent is worth.

The hubs are N and O, and P is a plus, as in the leaf of powers of the workbench. `x.7` is a token of x that has 7 to
give off, and `y.-5` a debtor of y. Tokens that have nothing to give off next have marks: `x.1'`.
"""
from __future__ import annotations

from dataclasses import replace
from typing import Iterator, Sequence

from ..proof.bundles import Bundle
from ..protocol.nets import Leaf
from ..protocol.predicatereader import read_predicate
from ..protocol.predicates import Less, PredicateFault
from .drafts import power_name
from .powers import HIGH, LOW, PLUS
from .worths import PLACE_LIMIT, worths_of


def _tokens(name: str, owed: int, count: int) -> Iterator[str]:
    """The tokens of a variable: each has so many of the last bits of what is owed."""
    before = ""
    for place in range(count):
        worth = f"{name}.{owed % (2 << place)}"
        before = before + "'" if before.rstrip("'") == worth else worth
        yield before


def _block(name: str, a: int, k: int) -> Iterator[str]:
    """The states of a variable with this coefficient: its tokens, and its debtor."""
    if a < 0:
        yield from _tokens(name, (1 << k) + a, k)
        yield f"{name}.{a}"
    elif a & (a - 1):
        yield from _tokens(name, a, k)


def _names(names: Sequence[str], coefficients: Sequence[int], k: int) -> list[str]:
    """The names of all states with the range 2^k, in the program's order."""
    out = [LOW, HIGH, "0f", "0t"]
    out += [f"{power_name(i)}{b}" for i in range(k) for b in "ft"]
    out.append(PLUS)
    for name, a in zip(names, coefficients):
        out += _block(name, a, k)
    return out


def _named(leaf: Leaf, names: Sequence[str], atom: Less) -> Leaf:
    """The leaf by names, if no move changes the sum of what they say."""
    if leaf.states != tuple(map(str, range(len(leaf.states)))):
        return leaf
    for k in range(PLACE_LIMIT + 1):
        found = _names(names, atom.coefficients, k)
        if len(found) == len(leaf.states) == len(set(found)):
            named = replace(leaf, states=tuple(found))
            return named if worths_of(named) is not None else leaf
    return leaf


def with_names(bundle: Bundle) -> Bundle:
    """The bundle whose leaves of powers have names; any other leaf is as it was."""
    net, leaves = bundle.net, []
    for leaf, part in zip(bundle.net.leaves, bundle.proof):
        try:
            atom = read_predicate(part.pred, net.names)
        except PredicateFault:
            return bundle
        leaves.append(_named(leaf, net.names, atom) if isinstance(atom, Less) else leaf)
    return replace(bundle, net=replace(net, leaves=tuple(leaves)))
