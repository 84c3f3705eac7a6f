"""`pop compile PREDICATE`: the smaller of the program's net and a succinct one, which the program certifies first."""
from __future__ import annotations

import json

from ..compiler.drafts import NotBuilt
from ..compiler.ownnames import with_names
from ..compiler.whole import Helpers
from ..engine.compiling import Made, NotCertified, Way, make_bundle
from ..engine.inputs import Asked
from ..engine.program import Answer, check
from ..engine.request import HELPERS, TEXT, Request, WordFault
from ..proof.bundles import bundle_of
from ..saying import say
from ..statuses import DONE, REFUSED
from ..text.writer import is_text_file, text_of, with_worths
from .passing import Printed

ASKED_LENGTH = 1_000_000  # characters of a bundle of the program's own that it is asked about
WAYS = {"--succinct": Way.SUCCINCT, "--quick": Way.QUICK, "--plain": Way.PLAIN, "--flocks": Way.FLOCKS}
WORKBENCH = (Way.SUCCINCT, Way.QUICK)


def way_of(request: Request) -> tuple[Way, Helpers]:
    """Whose leaves are asked for, and whether helpers may stand in them; WordFault where the words don't go
    together."""
    ways = [WAYS[word] for word in request.options if word in WAYS]
    if len(ways) > 1:
        raise WordFault("`--succinct`, `--quick`, `--plain` and `--flocks` exclude each other")
    helpers = Helpers.ANY
    if HELPERS in request.options:
        value = request.options[request.options.index(HELPERS) + 1 :][:1]
        if value not in (["any"], ["none"]):
            raise WordFault(f"`{HELPERS}` is followed by `none` or `any`")
        helpers = Helpers(value[0])
    if helpers is Helpers.NONE and ways and ways[0] not in WORKBENCH:
        raise WordFault(f"`{HELPERS} none` is for succinct and quick nets; the program's own have no helpers")
    return (ways[0] if ways else Way.SUCCINCT if helpers is Helpers.NONE else Way.SMALLEST), helpers


def compile_printed(request: Request, asked: Asked) -> Printed | None:
    """What is to be printed; None where nothing fits, which is said."""
    names = asked.lines[0].split(" ")[1:]
    try:
        made = make_bundle(names, asked.lines[1], *way_of(request))
    except (NotBuilt, NotCertified) as fault:
        say([str(fault)])
        return None
    for told in [*made.told, *_flocks(request, made), *how_soon(made)]:
        say([told])
    if made.answer.status == DONE and (TEXT in request.options or is_text_file(request.output or "")):
        bundle = with_names(bundle_of(json.loads(made.answer.first_line)))
        return printed_of(Answer(with_worths(bundle.net, text_of(bundle.net, bundle)), DONE))
    return printed_of(made.answer)


def _flocks(request: Request, made: Made) -> list[str]:
    """Which comparisons got no flock, where flocks were asked for."""
    if "--flocks" not in request.options or made.answer.status != DONE:
        return []
    from ..show.told.flocks import flocks_told

    return flocks_told(made.answer.text.encode())


def how_soon(made: Made) -> list[str]:
    """How soon the net settles, as the program says: of one that it made itself it is asked, if it isn't large."""
    line = made.answer.first_line
    if made.answer.status != DONE or not made.claim and len(line) > ASKED_LENGTH:
        return []
    from ..show.soon import soon_told

    return soon_told(bundle_of(json.loads(line)), made.claim or check(line).claim)


def printed_of(answer: Answer) -> Printed:
    """An answer as what the program printed."""
    return Printed(answer.text.encode("utf-8", "surrogateescape"), answer.status)


NOTHING_FITS = REFUSED
