"""`pop refute [FILE] [PREDICATE]`: looks for a crowd that the protocol gets wrong, and for no proof."""
from __future__ import annotations

import sys
import time

from ...engine import program
from ..usage import UsageFault
from ...limits import AGENT_LEAST
from ..table.reading import Given
from .find import NOT_FOUND, show_flaw
from .inputs import loaded_of

EVERY = 0.5  # seconds between two progress lines
LARGER_PART = 0.1  # of the time, where no number of agents is given: random ways of larger crowds


class _Progress:
    """A progress line on a terminal."""

    def __init__(self) -> None:
        self.last = time.time()
        self.shown = False

    def __call__(self, tried: "object", agents: int) -> None:
        from ...search.flaws import Tried

        assert isinstance(tried, Tried)
        if sys.stderr.isatty() and time.time() - self.last > EVERY:
            self.last, self.shown = time.time(), True
            print(
                f"\rpop: {agents} agents; {tried.inputs:,} inputs, {tried.crowds:,} crowds so far",
                end="",
                file=sys.stderr,
                flush=True,
            )

    def end(self) -> None:
        """Goes to a new line where one was shown."""
        if self.shown:
            print(file=sys.stderr)


def run(given: Given) -> int:
    """Tells a counterexample, or up to how many agents there is none."""
    loaded = loaded_of(given)
    tree = loaded.whole_tree()
    from ...search.explore import explore
    from ...search.larger import larger_flaw
    from ...search.limits import clock, ending
    from ...search.whole import system_of

    agents = given.whole("--agents") if given.has("--agents") else None
    least = max(0, AGENT_LEAST - len(loaded.net.leaves[0].helpers))
    if agents is not None and agents < least:
        raise UsageFault(f"`--agents` is {least} at least: a crowd of this net has {AGENT_LEAST} agents, or more")
    progress = _Progress()
    seconds = given.number("--seconds")
    system = system_of(loaded.net)
    with ending(seconds):
        in_full = seconds if agents is not None else seconds * (1 - LARGER_PART)
        flaw, tried = explore(system, tree, agents, in_full, progress, loaded.meets)
        if flaw is None and agents is None:
            flaw = larger_flaw(system, tree, clock() + seconds * LARGER_PART, loaded.meets)
    progress.end()
    if flaw is not None:
        return show_flaw(loaded, flaw, given.text("--write"))
    from ...show.telling import that_meet, untried_told

    whole = tried.agents
    if tried.restless is not None:
        from ...show.telling import OFFERED, restless_told

        assert loaded.predicate is not None
        print(restless_told(loaded.net, tree, loaded.predicate, tried.restless, tried, OFFERED))
        return NOT_FOUND
    if untried := untried_told(loaded, tried):
        print(untried)
        return NOT_FOUND
    print(
        f"no flaw: all inputs of up to {whole} agents plus helpers{that_meet(loaded)} were tried"
        if whole or agents == 0
        else "no flaw in what was tried"
    )
    if agents is not None and whole < agents:
        print(
            (
                f"not all inputs of up to {agents} agents could be tried: their crowds are too many, or the time was"
                " up; --seconds gives more"
            ),
            file=sys.stderr,
        )
    return NOT_FOUND if whole < (agents or 0) or not whole and agents is None else program.DONE
