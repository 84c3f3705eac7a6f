"""Looks for proofs with `first` of protocols that are wrong: `python3 -m bench.finder.entries_wrong [COUNT] [SEED]`.

A third of them are flocks in which some move makes the accepting state too early, a third are those of
bench/finder/entries.jsonl with one or two moves' results changed, the others are random nets. Small crowds say at which
input each goes wrong. For the predicate's value there no tree may be found where the end is wrong, and no goal where
there is no end. Trees are judged by the workbench's own reading. Without words it writes
bench/results/entries_wrong.txt.
"""
from __future__ import annotations

import random
import sys
from collections import Counter
from dataclasses import replace

from hurleyoak.engine.places import TOP
from hurleyoak.proof.checking import tree_fault
from hurleyoak.proof.facts import Space
from hurleyoak.protocol.nets import Leaf, Net
from hurleyoak.protocol.predicatereader import read_predicate
from hurleyoak.protocol.predicates import Predicate, value_at
from hurleyoak.search.explore import explore
from hurleyoak.search.flaws import WRONG
from hurleyoak.search.goals import NoGoal, find_goal
from hurleyoak.search.limits import clock
from hurleyoak.search.processes import deep
from hurleyoak.search.treefinder import find_deeper
from . import own_protocols as own
from . import protocols as p
from .entries import rows
from .stable import loaded_of
from .stable_wrong import PREDICATES, changed, random_one, randomly, told

RESULTS = TOP / "bench" / "results" / "entries_wrong.txt"
COUNT, SEED = 500, 1
AGENTS = 6
SMALL_STATES = 8
FLAW_SECONDS, TREE_SECONDS, GOAL_SECONDS = 0.5, 0.2, 0.2
TOLD = 20  # wrong nets between two lines

Asked = tuple[str, Net, str]


def flocks() -> list[tuple[Net, str]]:
    """Flocks, and some whose accepting agents make others something else first."""
    cases = [p.flock(4), p.tower(3), p.tower(4), p.log_flock(1), p.log_flock(2), p.binary_flock(5)]
    cases += [own.giving_back(p.log_flock(2), "4", "0", "2"), own.giving_back(p.tower(4), "4", "0", "3")]
    return [(case.net, case.predicate) for case in [*cases, own.restless_flock()]]


def early(net: Net, rng: random.Random) -> Net:
    """A net of whose moves one makes an accepting state that it doesn't need."""
    leaf = net.leaves[0]
    accepting = [q for q, output in enumerate(leaf.outputs) if output]
    late = [t for t in leaf.active if not any(leaf.outputs[q] for q in leaf.moves[t][:2])]
    t = rng.choice(late)
    a, b, r, s = leaf.moves[t]
    top = rng.choice(accepting)
    moves = list(leaf.moves)
    moves[t] = (a, b, top, s) if rng.random() < 0.5 else (a, b, r, top)
    return replace(net, leaves=(replace(leaf, moves=tuple(moves)),))


def asked(rng: random.Random, changes: list[tuple[Net, str]], tops: list[tuple[Net, str]]) -> Asked | None:
    """A net with its kind and predicate; None where a random one has no moves."""
    kind = rng.randrange(3)
    if kind == 0:
        net, text = rng.choice(tops)
        return "early", early(net, rng), text
    if kind == 1:
        net, text = rng.choice(changes)
        return "changed", changed(net, rng), text
    net = randomly(rng)
    return random_one(rng) or (("random", net, rng.choice(PREDICATES)) if net.leaves[0].moves else None)


def has_tree(leaf: Leaf, tree: Predicate, value: bool) -> bool:
    """Whether a valid tree is found, with `first` in it."""
    nodes = find_deeper(leaf, tree, value, None, clock() + TREE_SECONDS, 0.0)
    return nodes is not None and tree_fault(Space(leaf), tree, value, nodes) is None


def has_goal(leaf: Leaf, tree: Predicate, value: bool) -> bool:
    """Whether a valid goal is found, whose tree may have `first`."""
    try:
        find_goal(leaf, tree, value, clock() + GOAL_SECONDS, 0.0, 1)
    except NoGoal:
        return False
    return True


def judged(case: Asked) -> str | None:
    """What came of one net that is wrong; None where small crowds are right."""
    kind, net, text = case
    leaf, tree = net.leaves[0], read_predicate(text, net.names)
    flaw, _ = explore(leaf, tree, AGENTS, FLAW_SECONDS)
    if flaw is None:
        return None
    value = value_at(tree, flaw.counts)
    shown = (has_tree if flaw.kind == WRONG else has_goal)(leaf, tree, value)
    return f"{kind}, {flaw.kind}" + (" SHOWN" if shown else "")


def measured(count: int, seed: int) -> Counter[str]:
    """The counts of so many wrong nets."""
    rng = random.Random(seed)
    nets = [(one.net, row["pred"]) for row in rows() for one in [loaded_of(row)]]
    changes = [(net, text) for net, text in nets if len(net.leaves[0].states) <= SMALL_STATES]
    counts: Counter[str] = Counter()
    wrong = 0
    while wrong < count:
        case = asked(rng, changes, flocks())
        said = judged(case) if case is not None else None
        if said is None:
            continue
        counts[said] += 1
        wrong += 1
        if said.endswith("SHOWN"):
            print("UNSOUND", case, flush=True)
        if wrong % TOLD == 0:
            print(told(counts), flush=True)
    return counts


def main(arguments: list[str]) -> None:
    """Goes on until so many wrong nets were tried."""
    given = [int(word) for word in arguments]
    count, seed = [*given, *[COUNT, SEED][len(given) :]]
    counts = measured(count, seed)
    if not arguments:
        lines = [f"{kind}\t{number}\n" for kind, number in sorted(counts.items())]
        RESULTS.write_text("".join(["kind\twrong nets\n", *lines]), encoding="utf-8")


if __name__ == "__main__":
    deep(lambda: main(sys.argv[1:]))
