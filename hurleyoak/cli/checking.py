"""`check FILE`: the program is asked once, its claim is read whole, and what it speaks of is said by names."""
from __future__ import annotations

from ..engine.claims import Claim, claimed, split_shown
from ..engine.inputs import Asked
from ..engine.program import needs_claim
from ..proof.bundles import bundle_of
from ..saying import say
from ..statuses import DONE
from ..text.jsontext import read_json
from .passing import Printed, ask, put

CHECK, SHOW = "check", "show"


def checked(asked: Asked, puts: bool) -> tuple[Printed, list[list[str]]]:
    """What `check` prints, which is written where `puts` is given, and what is to be said behind it, one after the
    other. NoProgram where
    the status is DONE and nothing is claimed.

    `show` says what `check` says (shown_is_checked), and the net below it: for a file by names it is asked alone.
    """
    shows = asked.bundle is not None
    data = asked.text().encode("utf-8", "surrogateescape")
    printed = ask([SHOW] if shows else asked.words, data, passes=False, meanwhile=asked.words)
    text = printed.data.decode(errors="replace")
    listing: list[str] = []
    if shows and printed.status == DONE:
        own, listing = split_shown(text)
        # (below its claim `show` begins with the predicate; anything else stays, and is no part of a claim)
        text = own if not listing or listing[0].startswith("predicate ") else text
        printed = Printed(text.encode(), printed.status)
    claim = claimed(text)
    needs_claim(printed.status, claim)
    fault = put_whole(printed.data) if puts else ""
    told = _told(asked, claim, listing) if printed.status == DONE and not fault else []
    return Printed(printed.data, printed.status, fault), told


def put_whole(data: bytes) -> str:
    """Writes to standard output; why that failed, where it did."""
    try:
        put(data)
    except OSError as error:
        return error.strerror or "it failed"
    return ""


def _told(asked: Asked, claim: Claim, listing: list[str]) -> list[list[str]]:
    """How soon the end comes, and what was certified, of a file by names; and what was shown stable."""
    from ..show.soon import soon_told
    from ..show.told.certified import certified_told
    from ..show.told.stable import stable_told

    bundle = asked.bundle or bundle_of(read_json(asked.lines[0]))
    if claim.is_stable:
        return [stable_told(bundle, claim, listing, asked.file)]
    soon = [[f"{asked.file}: {told}"] for told in soon_told(bundle, claim)]
    return [*soon, certified_told(listing, asked.file)] if listing else soon


def say_told(told: list[list[str]]) -> None:
    """Says one after the other."""
    for lines in told:
        say(lines)
