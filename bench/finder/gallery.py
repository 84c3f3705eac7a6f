"""Writes the gallery of `examples/found`: `python3 -m bench.finder.gallery FOLDER`; each proof is found and then
certified."""
from __future__ import annotations

import sys
import textwrap
from pathlib import Path

from hurleyoak.engine import program
from hurleyoak.proof.bundles import Bundle
from hurleyoak.proof.tame import is_tame_bundle
from hurleyoak.simulation.chains import longest_of
from hurleyoak.text.loaded import LoadedNet
from hurleyoak.search.finding import find
from hurleyoak.text.writer import text_of
from . import own_protocols as own
from . import protocols as p
from .making import Case, product

ANGLUIN = "Angluin and others 2006"
FLOCKS = "after Blondin, Esparza and Jaax 2018"
FLOCKS_OURS = "ours, over Blondin, Esparza and Jaax 2018"
SECONDS, SMALL = 60.0, 8.0
QUICK = {"average-and-conquer": "tellers"}  # where no name says which protocol is quick
WIDTH = 110

# the file's name, the protocol, how it works, its source
GALLERY: list[tuple[str, Case, str, str]] = [
    (
        "alarm",
        own.alarm(3),
        "A sensor network's alarm: at least 3 sensors are warm, and nobody has reset it; a reset silences all",
        "ours, over the flock of birds of Angluin and others 2006",
    ),
    ("angluin-remainder", p.remainder(3, 1), "Leaders with an output bit add up modulo 3 and turn followers", ANGLUIN),
    (
        "angluin-threshold",
        p.threshold((1, -1), 0),
        "Leaders with an output bit add up values cut at 1; who is left over follows",
        ANGLUIN,
    ),
    (
        "average-and-conquer",
        p.average(5),
        "Odd values up to 5 are averaged, opposite ones cancel out, and who has none follows",
        "Alistarh, Gelashvili and Vojnovic 2015",
    ),
    ("binary-flock-13", p.binary_flock(13), "Powers of 2, and the sums 8, 12, 13 of the highest bits of 13", FLOCKS),
    (
        "binary-flock-100",
        p.binary_flock(100),
        "A threshold of 100 in 10 states: powers of 2, and the sums 64, 96, 100",
        FLOCKS,
    ),
    ("counter", own.counter(3), "A helper counts to 3, and then tells all", "ours"),
    ("either", own.either(), "Three of x or two of y, in one leaf", "ours"),
    ("equal", own.same(True), "Agents of x and y cancel out, and who is left over says no", "ours"),
    (
        "equal-that-tells",
        own.telling_same(True),
        "Agents of x and y cancel out and become tellers, who say yes and make others say it, until one who is left over"
        " silences them",
        "ours",
    ),
    (
        "flock-that-gives-back",
        own.giving_back(p.log_flock(2), "4", "0", "2"),
        "A flock whose 4 makes empty agents 2 first. Only `first` says why: before there is a 4, four agents were put"
        " together, and what a 4 makes comes later",
        FLOCKS_OURS,
    ),
    (
        "flock-of-16-that-gives-back",
        own.giving_back(p.log_flock(4), "16", "0", "8"),
        "A flock of 16 whose 16 makes empty agents 8 first, so that one 16 looks as if it were made of two",
        FLOCKS_OURS,
    ),
    ("flock-with-rest", p.flock(4, rest=True), "A flock whose agents keep what is over 4", ANGLUIN),
    ("found-out", own.exactly_one(), "One agent of x alone: two are found out, and tell all", "ours"),
    (
        "head-start",
        own.head_start(2),
        "Majority in which two helpers give y a head start",
        "ours, over Blondin, Esparza, Jaax and Meyer 2017",
    ),
    (
        "head-start-that-tells",
        own.telling_majority(False, 2),
        "Majority with tellers in which two helpers give y a head start",
        "ours",
    ),
    ("helper-remainder", own.helper_rest(3), "A helper keeps the remainder modulo 3", "ours"),
    (
        "interval",
        own.interval(1, 2),
        "Values are added up to 3, and each agent knows the greatest total that it heard of",
        "ours",
    ),
    (
        "majority-with-ties",
        p.majority(True),
        "Majority with four states that says yes at a tie",
        "Blondin, Esparza, Jaax and Meyer 2017",
    ),
    (
        "majority-with-ties-that-tells",
        own.telling_majority(True),
        "Majority in five states that says yes at a tie, which tellers tell",
        "ours, over Blondin, Esparza, Jaax and Meyer 2017",
    ),
    ("mod-three", own.mod_three(), "Remainder 0 modulo 3 in four states, without leaders", "ours"),
    (
        "mod-three-that-tells",
        own.telling_mod_three(),
        "Remainders add up; two that give 0 become tellers, who say yes and make others say it, until one who has a"
        " remainder silences them",
        "ours",
    ),
    (
        "product",
        product("product", "epidemic and majority", p.epidemic(), own.telling_majority(False), "&&"),
        "Two protocols in one leaf, by pairs of states: an epidemic, and majority with tellers",
        "product, Angluin and others 2006",
    ),
    ("recall", own.broadcast(), "A message that holds unless somebody recalls it", "ours"),
    ("tower", p.tower(5), "Of two agents on one floor one goes up", FLOCKS),
    (
        "tower-that-gives-back",
        own.giving_back(p.tower(4), "4", "0", "3"),
        "A tower whose top floor takes those on the ground to floor 3 first, where two would make the top",
        FLOCKS_OURS,
    ),
    ("twice", own.twice(), "Each y stands for two debts, which the x pay", "ours"),
    (
        "twice-that-tells",
        own.telling_twice(),
        "An A is worth 1, a B -2 and a C -1. What cancels out becomes a teller, who says yes and makes others say it,"
        " until somebody with a debt silences it",
        "ours",
    ),
    ("two-rumours", own.two_rumours(), "Who has heard two rumours tells all", ANGLUIN),
    ("unequal", own.same(False), "Agents of x and y cancel out, and who is left over says yes", "ours"),
    (
        "unequal-that-tells",
        own.telling_same(False),
        "Agents of x and y cancel out and become tellers, who say no and make others say it, until one who is left over"
        " silences them",
        "ours",
    ),
]

APPROXIMATE = """# approximate-majority: y - x < 0. Agents of x and y make each other undecided, and the undecided
# follow the agent that they meet.
# A reaction network that is right with high probability only: x and y meet, one of them becomes undecided and follows
# the other, whichever was more. So a crowd that outputs the wrong value is terminal and can be reached, and no proof
# excludes it. Source: Angluin, Aspnes and Eisenstat 2008.

inputs    x: X   y: Y
X + Y -> X + U
X + U -> X + X
Y + U -> Y + Y
yes       X
computes  y - x < 0
"""


def how_slow(name: str, bundle: Bundle) -> str:
    """How long the end takes where the layers aren't tame, and which protocol is quick; nothing where they are."""
    found = None if is_tame_bundle(bundle) else longest_of(bundle.net.leaves[0])
    if found is None:
        return ""
    crowd = " ".join(f"{variable}={k}" for variable, k in zip(bundle.net.names, found.counts))
    quick = QUICK.get(name, f"{name}-that-tells")
    return f" Slow: {round(found.meetings):,} meetings on average at {found.agents} agents, {crowd}; {quick} is quick."


def head_of(name: str, case: Case, told: str, source: str, bundle: Bundle) -> str:
    """The first lines of a file."""
    text = f"{name}: {case.predicate}. {told}.{how_slow(name, bundle)} Source: {source}."
    return "\n".join(textwrap.wrap(text, WIDTH, initial_indent="# ", subsequent_indent="# "))


def written(name: str, case: Case, told: str, source: str) -> tuple[str, str]:
    """The file's text and what `check` says of it."""
    loaded = LoadedNet(name, case.net, case.predicate, [case.predicate])
    found = find(loaded, SECONDS, SMALL, jobs=1)
    if found.bundle is None:
        raise SystemExit(f"{name}: not found")
    answer = program.check(found.bundle.line())
    if answer.status != program.DONE:
        raise SystemExit(f"{name}: {answer.first_line}")
    return f"{head_of(name, case, told, source, found.bundle)}\n\n{text_of(case.net, found.bundle)}", answer.text


def main(folder: Path) -> None:
    """Writes all files."""
    folder.mkdir(exist_ok=True)
    for name, case, told, source in GALLERY:
        text, expected = written(name, case, told, source)
        (folder / f"{name}.pop").write_text(text)
        (folder / f"{name}.expected").write_text(expected)
        print(f"{name}: {expected}", end="")
    (folder / "approximate-majority.pop").write_text(APPROXIMATE)
    answer = (
        "the protocol is wrong: at x=1 y=1 the predicate `y - x < 0` is false, and 2 moves lead to a terminal crowd in"
        " which X outputs true\n"
    )
    (folder / "approximate-majority.expected").write_text(answer)


if __name__ == "__main__":
    main(Path(sys.argv[1]))
