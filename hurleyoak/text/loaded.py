"""What was read of an input: a net with its predicate, and its proof as far as it is written, or a whole bundle."""
from __future__ import annotations

from dataclasses import dataclass, field
from typing import TYPE_CHECKING, Sequence, TypeAlias

from ..faults import InputFault
from ..proof.bundles import Bundle
from ..protocol.combining import combined_predicate
from ..protocol.nets import Net
from ..protocol.predicatereader import read_predicate
from ..protocol.predicates import Predicate, value_at
from .madeleaf import MadeLeaf
from .proofreader import ProofDraft, finished
from .scanner import Place

if TYPE_CHECKING:
    from .networks import Network

SHAPES = (
    "the combination and the predicate differ in shape: give each leaf a line `computes PREDICATE` "
    "(docs/guide/certificates.md says which)"
)


@dataclass
class Written:
    """What a `.pop` file says in addition to a net and its predicates. `leaves` have their places, and `labels` are
    their names if there are several. `assumed` are the predicates of its lines `assume`. `drafts` are the leaves'
    proofs as far as they are written, or None if the leaves have no predicates. `network` is the reaction network that
    the text was made of.
    """

    leaves: list[MadeLeaf]
    labels: list[str]
    assumed: list[str]
    drafts: list[ProofDraft] | None = None
    network: Network | None = None


@dataclass
class LoadedNet:
    """A net that was read, with its predicate where one is known. `parts` are the leaves' predicates, None where there
    are none or where the combination and the predicate differ in shape."""

    name: str
    net: Net
    predicate: str | None = None
    parts: list[str] | None = None
    written: Written | None = None
    warnings: list[str] = field(default_factory=list)

    @property
    def labels(self) -> list[str]:
        """The leaves' names, where there are several and they have some."""
        return self.written.labels if self.written else []

    @property
    def assumed(self) -> list[str]:
        """The predicates of the lines `assume`, which no proof knows."""
        return self.written.assumed if self.written else []

    @property
    def assumed_trees(self) -> tuple[Predicate, ...]:
        """The same as trees."""
        return tuple(read_predicate(text, self.net.names) for text in self.assumed)

    @property
    def network(self) -> Network | None:
        """The reaction network, of an input that is one."""
        return self.written.network if self.written else None

    @property
    def drafts(self) -> list[ProofDraft] | None:
        """The leaves' proofs as far as they are written."""
        return self.written.drafts if self.written else None

    @property
    def has_proof(self) -> bool:
        """Whether some part of a proof is written."""
        return any(draft.is_given for draft in self.drafts or [])

    def meets(self, counts: Sequence[int]) -> bool:
        """Whether an input meets all that the file assumes."""
        return all(value_at(tree, counts) for tree in self.assumed_trees)

    def part_trees(self) -> list[Predicate]:
        """The leaves' predicates as trees; InputFault where none are given."""
        if self.parts is None and self.predicate is not None:
            raise InputFault(f"{self.name}: {SHAPES}")
        if self.parts is None:
            raise InputFault(
                f"{self.name}: the predicate is missing: add `computes PREDICATE`, or give it as an argument"
            )
        return [read_predicate(text, self.net.names) for text in self.parts]

    def whole_tree(self) -> Predicate:
        """The whole predicate's tree; InputFault where there is none."""
        if self.predicate is None:
            self.part_trees()
        assert self.predicate is not None
        return read_predicate(self.predicate, self.net.names)


@dataclass
class LoadedBundle(LoadedNet):
    """A bundle in JSON: a net with its predicate and a whole proof."""

    bundle: Bundle = field(kw_only=True)

    @property
    def has_proof(self) -> bool:
        """It has one."""
        return True


Loaded: TypeAlias = LoadedNet | LoadedBundle


def bundle_in(loaded: Loaded) -> Bundle | None:
    """The bundle of an input that is one in JSON."""
    return loaded.bundle if isinstance(loaded, LoadedBundle) else None


def strict_bundle(loaded: Loaded) -> Bundle:
    """The bundle of an input with a whole proof; InputFault where something in it stands for nothing or is left
    open."""
    if isinstance(loaded, LoadedBundle):
        return loaded.bundle
    if loaded.drafts is None or loaded.parts is None or loaded.predicate is None:
        raise InputFault(
            f"{loaded.name}: this is a net; a bundle has a predicate and a proof too. `bin/pop find` looks for the"
            " proof"
        )
    for draft in loaded.drafts:
        for note in draft.notes:
            raise note.place.fault(note.told).of_input(loaded.name)
    return bundle_from_drafts(loaded)


def bundle_from_drafts(loaded: Loaded) -> Bundle:
    """The bundle of drafts without holes; what stands for nothing in them is left out."""
    assert loaded.drafts is not None and loaded.parts is not None and loaded.predicate is not None
    parts = []
    for draft, text in zip(loaded.drafts, loaded.parts):
        part = finished(draft, text)
        if part is None:
            place: Place = draft.holes[0]
            told = (
                "this part of the proof is to be found: `bin/pop find` looks for it"
                if draft.is_given
                else "this leaf has no proof: `bin/pop find` looks for one"
            )
            raise place.fault(told).of_input(loaded.name)
        parts.append(part)
    return Bundle(loaded.net, loaded.predicate, tuple(parts))


def predicates_differ(loaded: Loaded) -> bool:
    """Whether the leaves' predicates combine to another tree than the whole predicate's."""
    if loaded.parts is None or loaded.predicate is None:
        return False
    return combined_predicate(loaded.net, loaded.part_trees()) != read_predicate(loaded.predicate, loaded.net.names)
