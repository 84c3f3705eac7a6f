"""Looks for goals of protocols that are wrong: `python3 -m bench.finder.stable_wrong [COUNT] [SEED]`.

Half of them are those of bench/finder/stable.jsonl with one or two moves' results changed, the others are random nets
with a predicate that they compute for up to three agents, or with any. The wrong ones, by small crowds, must have no
goals: where both values get one, the program is asked. Lines with the counts come now and then.
"""
from __future__ import annotations

import random
import sys
from collections import Counter
from dataclasses import replace

from hurleyoak.engine import program
from hurleyoak.proof.bundles import Bundle, LeafGoals
from hurleyoak.protocol.nets import Leaf, Move, Net, is_silent
from hurleyoak.protocol.predicatereader import read_predicate
from hurleyoak.search.explore import explore
from hurleyoak.search.goals import NoGoal, find_goal
from hurleyoak.search.processes import deep
from hurleyoak.search.limits import clock
from .stable import loaded_of, rows

PREDICATES = (
    "x >= 1",
    "x >= 2",
    "x >= 3",
    "x - y > 0",
    "x - y >= 0",
    "x = 1 mod 2",
    "x + y = 1 mod 2",
    "x >= 1 && y >= 1",
    "x >= 2 || y >= 2",
    "x - y = 0",
    "x + 2*y = 1 mod 3",
    "x <= 1",
    "x + y >= 0",
    "x + y >= 3",
)
AGENTS, FEW = 6, 3
TOLD = 20  # wrong nets between two lines
SMALL_STATES = 9
FLAW_SECONDS, GOAL_SECONDS = 0.5, 0.6


def _loud(moves: list[Move]) -> tuple[Move, ...]:
    return tuple(move for move in moves if not is_silent(move))


def changed(net: Net, rng: random.Random) -> Net:
    """A net with one or two moves' results changed, and sometimes an output."""
    leaf = net.leaves[0]
    moves = list(leaf.moves)
    for _ in range(rng.choice([1, 1, 2])):
        t, at = rng.randrange(len(moves)), rng.choice([2, 3])
        parts = [*moves[t]]
        parts[at] = rng.randrange(len(leaf.states))
        moves[t] = (parts[0], parts[1], parts[2], parts[3])
    outputs = list(leaf.outputs)
    if rng.random() < 0.3:
        q = rng.randrange(len(outputs))
        outputs[q] = not outputs[q]
    return replace(net, leaves=(replace(leaf, moves=_loud(moves), outputs=tuple(outputs)),))


def randomly(rng: random.Random) -> Net:
    """A random net over two variables, sometimes with helpers."""
    size = rng.choice([3, 3, 4, 4, 5])
    moves: list[Move] = []
    for p in range(size):
        for q in range(p, size):
            if rng.random() < 0.65:
                moves.append((p, q, rng.randrange(size), rng.randrange(size)))
    helpers = tuple(rng.randrange(size) for _ in range(rng.choice([1, 1, 2]))) if rng.random() < 0.25 else ()
    starts = rng.sample(range(size), 2)
    outputs = tuple(rng.random() < 0.5 for _ in range(size))
    leaf = Leaf(tuple(f"s{i}" for i in range(size)), _loud(moves), (starts[0], starts[1]), outputs, helpers)
    return Net(("x", "y"), (leaf,), (0,), 2 if helpers else 1)


def is_wrong(net: Net, text: str, agents: int) -> bool:
    """Whether a small crowd goes wrong."""
    flaw, _ = explore(net.leaves[0], read_predicate(text, net.names), agents, FLAW_SECONDS)
    return flaw is not None


def random_one(rng: random.Random) -> tuple[str, Net, str] | None:
    """A random net with a predicate; None where it computes nothing that is asked for."""
    net = randomly(rng)
    if not net.leaves[0].moves:
        return None
    fits = [text for text in PREDICATES if not is_wrong(net, text, FEW)]
    if not fits and rng.random() > 0.03:
        return None
    return "random", net, fits[0] if fits else rng.choice(PREDICATES)


def made(rng: random.Random, known: list[tuple[Net, str]]) -> tuple[str, Net, str] | None:
    """A net with its kind and predicate; None where a random one computes nothing that is asked for."""
    if rng.random() < 0.5:
        net, text = rng.choice(known)
        return "changed", changed(net, rng), text
    return random_one(rng)


def shown(net: Net, text: str) -> bool:
    """Whether the program shows goals of this net stable."""
    leaf, tree = net.leaves[0], read_predicate(text, net.names)
    try:
        on_true, on_false = (find_goal(leaf, tree, value, clock() + GOAL_SECONDS, 0.0) for value in (True, False))
    except NoGoal:
        return False
    bundle = Bundle(net, text, (LeafGoals(text, on_true, on_false),))
    return program.check(bundle.line()).status == program.DONE


def told(counts: Counter[str]) -> str:
    """The counts in a line."""
    return ", ".join(f"{kind} {number}" for kind, number in sorted(counts.items()))


def main(arguments: list[str]) -> None:
    """Goes on until so many wrong nets were tried."""
    count, seed = (int(word) for word in [*arguments, *["500", "1"][len(arguments) :]])
    rng = random.Random(seed)
    known = [(one.net, row["pred"]) for row in rows() for one in [loaded_of(row)]]
    known = [(net, text) for net, text in known if len(net.leaves[0].states) <= SMALL_STATES]
    counts: Counter[str] = Counter()
    while counts["wrong"] < count:
        case = made(rng, known)
        if case is None:
            continue
        kind, net, text = case
        wrong = is_wrong(net, text, AGENTS)
        stable = shown(net, text)
        counts[f"{kind} {'wrong' if wrong else 'right'}{' stable' if stable else ''}"] += 1
        counts["wrong"] += wrong
        if wrong and stable:
            print(f"UNSOUND {text} {net.value()}", flush=True)
        if wrong and counts["wrong"] % TOLD == 0:
            print(told(counts), flush=True)


if __name__ == "__main__":
    deep(lambda: main(sys.argv[1:]))
