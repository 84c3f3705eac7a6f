"""How soon a certified crowd comes to rest: what the program proved of it (docs/trust/certified.md), or which moves
hinder a proof, and what small crowds take."""
from __future__ import annotations

from itertools import islice

from ..engine.claims import Claim
from ..proof.bundles import Bundle, LeafProof, Part
from ..proof.names import Names
from ..proof.tame import Fight, TooMuch, Way, fights
from ..protocol.nets import Leaf
from ..simulation.chains import longest_of

LOOKED_AT = 1_000  # fights of a leaf, of which one is told
LAWLESS = " of the net, which has no chances and orders,"


def _has_one(part: Part) -> bool:
    return isinstance(part, LeafProof) and len(part.layers) == 1


def soon_told(bundle: Bundle, claim: Claim) -> list[str]:
    """Sentences where the program certified the bundle; none where it didn't."""
    if not claim.is_certified:
        return []
    times = "" if claim.bound == 1 else f"{claim.bound} "
    out = []
    if all(map(_has_one, bundle.proof)):
        out.append(f"each leaf has one layer, so in every run of n agents at most {times}n meetings change anything")
    if not claim.is_tame:
        return out + slow_told(bundle)
    whose = LAWLESS if any(leaf.laws for leaf in bundle.net.leaves) else ""
    out.append(
        f"random meetings{whose} settle n agents within K n n (n - 1) / 2 on average, K = {claim.bound}: proved"
    )
    return out


def slow_told(bundle: Bundle) -> list[str]:
    """For each leaf whose layers aren't tame two moves that fight, and how long small crowds take."""
    out = []
    for i, (leaf, part) in enumerate(zip(bundle.net.leaves, bundle.proof)):
        fight = _fight_of(leaf, part)
        if fight is not None:
            lead = f"leaf {i}: " if len(bundle.net.leaves) > 1 else ""
            out.append(f"{lead}{fight_told(Names(bundle.net.names, leaf), fight)}. {_how_long(bundle, leaf)}")
    return out


def _fight_of(leaf: Leaf, part: Part) -> Fight | None:
    """Two moves that fight, the later one undoing what the other does where there are such; None also where the test
    would take too long here."""
    try:
        some = list(islice(fights(leaf, part.layers), LOOKED_AT)) if isinstance(part, LeafProof) else []
    except TooMuch:
        return None
    undone = (
        fight for fight in some if leaf.change(fight.own) == {q: -k for q, k in leaf.change(fight.later).items()}
    )
    return next(undone, some[0] if some else None)


def fight_told(names: Names, fight: Fight) -> str:
    """Which two moves fight, and how."""
    own, later = f"`{names.move(fight.own)}` of layer {fight.layer}", f"`{names.move(fight.later)}`"
    if fight.way is Way.RAISES:
        return f"{later} of a later layer raises the weights that {own} lowers, while both are possible"
    if fight.way is Way.WAKES:
        return f"{later} of a later layer makes {own} possible, where no move up to that layer was"
    return f"{later} of a later layer takes the states of {own}, and doesn't lower its weights"


def _how_long(bundle: Bundle, leaf: Leaf) -> str:
    """What exact chains of small crowds say."""
    found = longest_of(leaf)
    if found is None:
        return "So it may take exponential time: `sweep` measures it"
    crowd = " ".join(f"{name}={k}" for name, k in zip(bundle.net.names, found.counts))
    taken = f"{round(found.meetings):,} meetings on average at {found.agents} agents, {crowd}"
    if found.meetings > found.agents**3:
        return f"So it may take exponential time: already {taken}"
    return f"So nothing bounds its time; of 4 to 10 agents the slowest take {taken}"
