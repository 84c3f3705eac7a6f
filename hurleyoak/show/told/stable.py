"""What the program has shown stable: the predicate, what that means, and the net of a file by names."""
from __future__ import annotations

from typing import Sequence

from ...engine.claims import Claim
from ...proof.bundles import Bundle
from ...protocol.predicatereader import read_predicate
from ...protocol.predicates import canonical_text
from .certified import cut, kept


def stable_told(bundle: Bundle, claim: Claim, shown: Sequence[str], file: str) -> list[str]:
    """Sentences on the claim, with the lines of `show` below it, of a long net the first ones. Where it wasn't asked,
    the workbench says the predicate."""
    who = "this is what the program has shown stable" if shown else "the workbench says that this was shown stable"
    return [
        f"{file}: {who}:",
        *cut([*kept(shown)] if shown else [_predicate(bundle)], f"pop show {file}"),
        f"at most {claim.bound} step{'' if claim.bound == 1 else 's'} for each agent lead to a crowd in which every"
        " agent outputs the predicate's value, and does so for ever",
        "it need not fall silent: agents may go on changing without changing their outputs",
    ]


def _predicate(bundle: Bundle) -> str:
    return f"predicate {canonical_text(read_predicate(bundle.pred, bundle.net.names), bundle.net.names)}"
