"""`pop exact [FILE] x=5 y=4`: the Markov chain of a small crowd: chances of its ends, and the meetings to them."""
from __future__ import annotations

import re

from ...chain.answers import Each
from ...chain.chains import Chain
from ...chain.fitting import too_large
from ...chain.space import TooLarge
from ...chain.worst import Worst, worst_of
from ...faults import InputFault
from ...limits import AGENT_LEAST
from ...protocol.laws import LAWS_TOLD
from ...protocol.reactions import Reactions
from ...show.chances import table_told, time_told, told
from ...simulation.crowds import counts_of, split_words
from ...statuses import DONE, UNDECIDED
from ...saying import say
from ...text.files import STANDARD_INPUT, in_volume
from ...text.given import with_predicate
from ...text.loaded import Loaded
from ..progress import Progress
from ..table.reading import Given, takes
from ..usage import UsageFault
from . import warn
from .inputs import load_given
from .modelled import pace_of
from .simulate import net_title, value_of

SIZES = re.compile(r"([0-9]{1,4})(?:\.\.([0-9]{1,4}))?")


def sizes_of(text: str) -> range:
    """The numbers of agents in `2..12`, or in `7`."""
    found = SIZES.fullmatch(text)
    low, high = (int(found[1]), int(found[2] or found[1])) if found else (0, 0)
    if not AGENT_LEAST <= low <= high:
        raise UsageFault(f"`--agents` is followed by numbers of agents from 2 on, as in `2..12`, found `{text}`")
    return range(low, high + 1)


def _loaded(given: Given, files: list[str]) -> Loaded:
    """The input, with the predicate that is given."""
    loaded, predicate = load_given(given, files[0] if files else STANDARD_INPUT), given.text("--predicate")
    if predicate is not None:
        loaded = with_predicate(loaded, predicate)
    warn([text for text in loaded.warnings if text != LAWS_TOLD], loaded.name)
    return loaded


def _one(given: Given, loaded: Loaded, words: list[str], each: Each) -> list[str]:
    """What is said of one input."""
    counts = counts_of(loaded.net, words)
    if not loaded.meets(counts):
        raise InputFault(f"{loaded.name}: this crowd doesn't meet what the file assumes: {', '.join(loaded.assumed)}")
    fractions, value = given.has("--fractions"), value_of(loaded, counts)
    agents = sum(counts) + len(loaded.net.leaves[0].helpers)
    pace = pace_of(given, loaded, agents)
    if pace.volume is not None:
        loaded = in_volume(loaded, agents, pace.volume)
    start = Reactions(loaded.net).start(counts)
    try:
        chain = Chain(loaded.net, [start], fractions, each)
    except TooLarge:
        raise too_large(loaded.net, counts, fractions, each) from None
    answer = chain.answer(start, given.whole("--after") if given.has("--after") else None)
    lines = told(answer, value, given.whole("--top"))
    return lines if pace.volume is None else [*lines[:-1], time_told(answer, pace), lines[-1]]


def _worst(given: Given, loaded: Loaded, sizes: range, each: Each) -> tuple[list[Worst], str]:
    """The rows of a table, and why there are no more."""
    rows: list[Worst] = []
    for agents in sizes:
        try:
            row = worst_of(loaded, agents, given.has("--fractions"), lambda text: each(f"{agents} agents: {text}"))
        except InputFault as fault:
            return rows, str(fault)
        if row is not None:
            rows.append(row)
    return rows, ""


def run(given: Given) -> int:
    """Prints what becomes of one input, or of the worst inputs by size; 4 where not all sizes fit."""
    files, words = split_words(given.words)
    agents = given.text("--agents")
    if len(files) > 1:
        raise UsageFault(takes(given.command))
    if agents is not None and (words or given.has("--after") or given.has("--volume")):
        raise UsageFault(
            "`--agents` looks at all inputs of so many agents: it goes without counts, `--after` and `--volume`"
        )
    sizes = None if agents is None else sizes_of(agents)
    loaded, progress = _loaded(given, files), Progress()

    def each(text: str) -> None:
        progress(lambda: text)

    try:
        if sizes is None:
            lines, why = _one(given, loaded, words, each), ""
        else:
            rows, why = _worst(given, loaded, sizes, each)
            if not rows:
                raise InputFault(why or f"{loaded.name}: no input has {agents} agents")
            lines = table_told(rows, loaded.net.names, net_title(loaded))
    finally:
        progress.end()
    print("\n".join(lines))
    if why:
        say([f"{why}; the table ends before it"])
    return UNDECIDED if why else DONE
