"""A whole predicate: for each atom the smallest leaf, equally many helpers in all of them, and the bundle."""
from __future__ import annotations

from dataclasses import dataclass
from enum import Enum
from typing import Callable, Sequence

from ..proof.bundles import Bundle, LeafProof
from ..limits import HELPER_LIMIT, LEAF_LIMIT, MOVE_LIMIT, NARROW_STATE_LIMIT, STATE_LIMIT, WIDE_LEAF_LIMIT
from ..protocol.nets import Item, Net
from ..protocol.predicates import And, Less, Not, Or, Predicate, Rest, canonical_text
from .alone import alone_leaf, alone_proof, stands_alone
from .drafts import LeafDraft, NotBuilt
from .flocks import OneSign, constant_leaf, constant_proof, flock_leaf, flock_proof, one_sign
from .modulo import modulo_leaf
from .modulo_proof import modulo_proof
from .powers import best_powers
from .powers_proof import powers_proof
from .rests import leaders_leaf, leaders_proof

Atom = Less | Rest


class Kind(Enum):
    """Which leaf an atom has, as it is told."""

    CONSTANT = "one state, as every input reaches it"
    FLOCK = "a flock with weights"
    ALONE = "a flock without helpers"
    POWERS = "powers of two around a hub"
    DIGITS = "a counter of digits"
    LEADERS = "leaders that add up"


class Helpers(Enum):
    """Whether a net may have helpers."""

    ANY = "any"
    NONE = "none"


@dataclass(frozen=True)
class Built:
    """The leaf of an atom; its proof is made once all helpers are there."""

    atom: Atom
    kind: Kind
    draft: LeafDraft
    proof: Callable[[str], LeafProof]


@dataclass(frozen=True)
class Compiled:
    """A bundle, and which leaf each atom has."""

    bundle: Bundle
    kinds: tuple[Kind, ...]

    @property
    def helpers(self) -> int:
        """How many agents stand in every input beside those of the variables."""
        return len(self.bundle.net.leaves[0].helpers)


def atoms_of(tree: Predicate) -> list[Atom]:
    """The atoms from left to right, each once."""
    if isinstance(tree, Not):
        return atoms_of(tree.part)
    if isinstance(tree, (And, Or)):
        return list(dict.fromkeys([*atoms_of(tree.left), *atoms_of(tree.right)]))
    return [tree]


def combination(tree: Predicate, atoms: Sequence[Atom]) -> list[Item]:
    """The combination of the leaves in postfix."""
    if isinstance(tree, Not):
        return [*combination(tree.part, atoms), "not"]
    if isinstance(tree, (And, Or)):
        sign = "and" if isinstance(tree, And) else "or"
        return [*combination(tree.left, atoms), *combination(tree.right, atoms), sign]
    return [atoms.index(tree)]


def _rest(atom: Rest) -> Built:
    digits, leaders = modulo_leaf(atom), leaders_leaf(atom)
    if len(digits.draft.states) < len(leaders.draft.states):
        return Built(atom, Kind.DIGITS, digits.draft, lambda text: modulo_proof(digits, text))
    return Built(atom, Kind.LEADERS, leaders.draft, lambda text: leaders_proof(leaders, text))


def _less(atom: Less, without_helpers: bool, joins: bool) -> Built:
    flat = one_sign(atom)
    if flat is None:
        powers = best_powers(atom, joins)
        return Built(atom, Kind.POWERS, powers.draft, lambda text: powers_proof(powers, text))
    return _one_sign(atom, flat, without_helpers, joins)


def _one_sign(atom: Less, flat: OneSign, without_helpers: bool, joins: bool) -> Built:
    if flat.least <= 0:
        draft = constant_leaf(flat)
        return Built(atom, Kind.CONSTANT, draft, lambda text: constant_proof(draft, flat, text))
    if without_helpers and stands_alone(flat):
        alone = alone_leaf(flat)
        return Built(atom, Kind.ALONE, alone.draft, lambda text: alone_proof(alone, text))
    flock = flock_leaf(flat, joins)
    return Built(atom, Kind.FLOCK, flock.draft, lambda text: flock_proof(flock, text))


def _leaf(atom: Atom, names: Sequence[str], without_helpers: bool, joins: bool) -> Built:
    """The leaf of an atom; with `without_helpers` one that needs none, where there is one."""
    if isinstance(atom, Rest):
        if not without_helpers:
            return _rest(atom)
        leaders = leaders_leaf(atom)
        return Built(atom, Kind.LEADERS, leaders.draft, lambda text: leaders_proof(leaders, text))
    try:
        return _less(atom, without_helpers, joins)
    except NotBuilt as fault:
        raise NotBuilt(f"`{canonical_text(atom, names)}`: {fault}") from None


def _parts(atoms: Sequence[Atom], names: Sequence[str], helpers: Helpers, joins: bool) -> list[Built]:
    """The leaves without helpers where all can do without, else with as many as the one that needs most."""
    parts = [_leaf(atom, names, True, joins) for atom in atoms]
    needy = [part for part in parts if part.draft.helpers]
    if helpers is Helpers.NONE and needy:
        raise NotBuilt(f"`{canonical_text(needy[0].atom, names)}` has no leaf without helpers")
    is_small = sum(len(part.draft.states) for part in parts)
    if needy or helpers is Helpers.ANY and any(isinstance(atom, Rest) for atom in atoms):
        padded = [_leaf(atom, names, False, joins) for atom in atoms]
        if needy or sum(len(part.draft.states) for part in padded) < is_small:
            parts = padded
    most = max(len(part.draft.helpers) for part in parts)
    for part in parts:
        part.draft.pad(most)
    return parts


def _within_limits(parts: Sequence[Built], names: Sequence[str]) -> None:
    """NotBuilt where the net is above a limit of the files."""
    if len(parts) > LEAF_LIMIT:
        raise NotBuilt(f"the predicate has {len(parts)} different atoms, and a net has at most {LEAF_LIMIT} leaves")
    most = NARROW_STATE_LIMIT if len(parts) > WIDE_LEAF_LIMIT else STATE_LIMIT
    for part in parts:
        text, states = canonical_text(part.atom, names), len(part.draft.states)
        if states > most:
            raise NotBuilt(
                f"`{text}` takes {states} states, and a leaf of {len(parts)} has at most {most}{_costly(part)}"
            )
        if len(part.draft.moves) > MOVE_LIMIT:
            raise NotBuilt(f"`{text}` takes {len(part.draft.moves)} moves, and a leaf has at most {MOVE_LIMIT}")
        if len(part.draft.helpers) > HELPER_LIMIT:
            raise NotBuilt(f"`{text}` takes {len(part.draft.helpers)} helpers, and a leaf has at most {HELPER_LIMIT}")


def _costly(part: Built) -> str:
    """Which coefficient costs the most states."""
    if not isinstance(part.atom, Less):
        return ""
    costs = {abs(a): abs(a).bit_count() for a in part.atom.coefficients}
    worst = max(costs, key=lambda a: costs[a])
    return f"; the coefficient {worst} costs the most, as it has {costs[worst]} ones in binary"


def _fitting(atoms: Sequence[Atom], names: Sequence[str], helpers: Helpers) -> list[Built]:
    """The leaves in which tokens join, which are quicker, else those in which they don't, which have fewer states;
    NotBuilt where neither fits."""
    try:
        parts = _parts(atoms, names, helpers, True)
        _within_limits(parts, names)
    except NotBuilt:
        parts = _parts(atoms, names, helpers, False)
        _within_limits(parts, names)
    return parts


def compiled(tree: Predicate, names: Sequence[str], helpers: Helpers = Helpers.ANY) -> Compiled:
    """The succinct bundle of a predicate; NotBuilt where no leaf fits."""
    atoms = atoms_of(tree)
    parts = _fitting(atoms, names, helpers)
    leaves = tuple(part.draft.leaf() for part in parts)
    form = 2 if leaves[0].helpers else 1
    net = Net(tuple(names), leaves, tuple(combination(tree, atoms)), form)
    proofs = tuple(part.proof(canonical_text(part.atom, names)) for part in parts)
    return Compiled(Bundle(net, canonical_text(tree, names), proofs), tuple(part.kind for part in parts))
