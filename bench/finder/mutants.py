"""Right protocols with one move's result changed: `python3 -m bench.finder.mutants [COUNT]`, what `find` says of each.

The program certifies or plays whatever is shown, so nothing can be certified wrongly; what is counted is how often
there is an answer.
"""
from __future__ import annotations

import random
import sys
from collections import Counter
from dataclasses import replace
from typing import Iterator

from hurleyoak.engine import program
from hurleyoak.text.loaded import LoadedNet
from hurleyoak.search.finding import find
from hurleyoak.search.playing import play
from hurleyoak.protocol.predicates import value_at
from . import own_protocols as own
from . import protocols as p
from .making import Case

SECONDS = 30.0
COUNT = 60


def sources() -> list[Case]:
    """The nets that are changed."""
    return [
        own.two_rumours(),
        p.majority(False),
        p.majority(True),
        p.flock(4),
        p.flock(6, rest=True),
        p.tower(4),
        p.log_flock(3),
        p.log_flock(4),
        p.binary_flock(11),
        p.threshold((1, -1), 0),
        p.remainder(3, 1),
        p.average(3),
        own.counter(3),
        own.helper_rest(3),
        own.head_start(2),
        own.interval(1, 2),
        own.mod_three(),
        own.twice(),
        own.same(True),
        own.either(),
        own.alarm(3),
    ]


def mutants(count: int) -> Iterator[Case]:
    """Nets with one result changed, seeded."""
    for seed, case in zip(range(count), (case for _ in range(count) for case in sources())):
        rng = random.Random(seed)
        leaf = case.net.leaves[0]
        t = rng.choice(leaf.active)
        moves = list(leaf.moves)
        changed = list(moves[t])
        changed[rng.choice([2, 3])] = rng.randrange(len(leaf.states))
        moves[t] = (changed[0], changed[1], changed[2], changed[3])
        yield replace(
            case,
            name=f"{case.family}, {case.name}, seed {seed}",
            net=replace(case.net, leaves=(replace(leaf, moves=tuple(moves)),)),
        )


def answer(case: Case) -> str:
    """What `find` says: `certified` by the program, `counterexample` that the program played, or why there is
    neither."""
    loaded = LoadedNet(case.name, case.net, case.predicate, [case.predicate])
    found = find(loaded, SECONDS, 0.0, jobs=1)
    if found.bundle is not None:
        return "certified" if program.check(found.bundle.line()).status == program.DONE else "REJECTED"
    if found.flaw is not None:
        if not found.flaw.by_meetings:
            return "counterexample by a hidden move"
        played = play(case.net, found.flaw, value_at(loaded.whole_tree(), found.flaw.counts))
        return f"counterexample, {found.flaw.kind}" if played.is_as_told else "NOT AS PLAYED"
    return found.failures[0].reason


def main(arguments: list[str]) -> None:
    """A line for each, and the counts."""
    counts: Counter[str] = Counter()
    for case in mutants(int(arguments[0]) if arguments else COUNT):
        said = answer(case)
        counts[said] += 1
        print(f"{case.name}\t{said}", flush=True)
    print(dict(counts))


if __name__ == "__main__":
    main(sys.argv[1:])
