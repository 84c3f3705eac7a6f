"""`pop text [FILE]`: the `.pop` file of a net or a bundle."""
from __future__ import annotations

from ...text.loaded import strict_bundle
from ...statuses import DONE
from ...text.reactionfile import network_text
from ...text.writer import head, loaded_text, with_worths
from ..table.reading import Given
from . import warn
from .inputs import load_given


def run(given: Given) -> int:
    """Prints the text, which is read back to the same net or bundle."""
    loaded = load_given(given)
    warn(loaded.warnings, loaded.name)
    if given.has("--crn"):
        print(network_text(loaded.net), end="")
        return DONE
    has_proof = loaded.has_proof
    text = with_worths(loaded.net, loaded_text(loaded, strict_bundle(loaded) if has_proof else None))
    if not has_proof and loaded.predicate is not None:
        text += head("predicate", loaded.predicate) + "\n"
    print(text, end="")
    return DONE
