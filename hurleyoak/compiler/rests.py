"""The leaf of `sum = r mod m` by leaders that add up, with spare helpers: leaders of the value 0.

So a small remainder can stand beside leaves that need helpers. It has m + 4 states: the leaders, and followers that
say false or true, each as a caller, as in the leaf of powers, and as one that calls nobody.
"""
from __future__ import annotations

from dataclasses import dataclass

from ..proof.bundles import LeafProof, Node
from ..protocol.predicates import Rest
from .branch import AGENTS, HELPED, LEAVES, SOME, VALUE, Branch, Says, flows, said_of
from .drafts import LeafDraft


@dataclass(frozen=True)
class Leaders:
    """The leaf: state n, below m, is a leader of the value n."""

    draft: LeafDraft
    atom: Rest
    follower: dict[bool, int]
    caller: dict[bool, int]


def leaders_leaf(atom: Rest) -> Leaders:
    """The leaf of a congruence."""
    m = atom.modulus
    draft = LeafDraft()
    for n in range(m):
        draft.state(f"N{n}", n == atom.rest, n)
    follower = {b: draft.state("ft"[b], b, 0) for b in (False, True)}
    caller = {b: draft.state("FT"[b], b, 0) for b in (False, True)}
    for n in range(m):
        for other in range(n, m):
            total = (n + other) % m
            draft.move(n, other, total, follower[total == atom.rest])
    it = Leaders(draft, atom, follower, caller)
    _tell(it)
    draft.inputs = [a % m for a in atom.coefficients]
    return it


def _tell(it: Leaders) -> None:
    """A leader turns callers; leaders and callers tell all others."""
    move, follower, caller = it.draft.move, it.follower, it.caller
    for n in range(it.atom.modulus):
        b = n == it.atom.rest
        move(n, caller[not b], n, caller[b], 1 if b else 2)
        move(n, follower[not b], n, caller[b], 4 if b else 5)
    move(caller[True], caller[False], follower[True], follower[False], 3)
    for b, layer in ((True, 4), (False, 5)):
        move(caller[b], follower[not b], caller[b], follower[b], layer)


def _tree(it: Leaders, value: bool) -> tuple[Node, ...]:
    """Each leader in turn is there: it says what is right, or the sum is another one."""
    draft, m = it.draft, it.atom.modulus
    leaders = range(m)
    opened, root = Branch.root(draft).opened()
    trap, leaves, never, branch = root.trap(leaders)
    unused = said_of(Says.UNUSED, dict.fromkeys(range(len(draft.inputs)), -1))
    nobody = never.lin({HELPED: -1} if draft.helpers else {AGENTS: 1, **unused})
    nodes, ends = [opened, trap, leaves.lin({LEAVES: 1}), nobody], []
    for n in leaders:
        look, branch, here = branch.present(n)
        nodes.append(look)
        if (n == it.atom.rest) == value:
            ends.append(here.wrong_is_absent(value))
        else:
            absent = said_of(Says.ABSENT, {q: q for q in leaders if q != n})
            alone = {(Says.ALONE, n): n, VALUE: -1 if value else 0}
            ends.append(here.residue(m, {**flows({q: q for q in leaders}), **absent, **alone}))
    nodes.append(branch.lin({SOME: 1, **said_of(Says.ABSENT, dict.fromkeys(leaders, -1))}))
    return (*nodes, *reversed(ends))


def leaders_proof(it: Leaders, text: str) -> LeafProof:
    """The leaders join; false callers fall beside a right leader, true ones beside another, then both; then true is
    told, then false."""
    draft, follower, caller = it.draft, it.follower, it.caller
    callers = ([caller[False]], [caller[True]], caller.values())
    weights = draft.told(range(it.atom.modulus), *callers, [follower[False]], [follower[True]])
    layers = draft.layers(weights)
    return LeafProof(text, layers, _tree(it, True), _tree(it, False))
