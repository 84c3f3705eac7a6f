#!/usr/bin/python3
"""Holds tame layers against exact chains, and three tests of them against a slow one.

    /usr/bin/python3 bench/tame.py [--short] [--write]

With --write the table goes into docs/develop/performance.md, and the figures into bench/results/tame.txt.

First, random nets of 2 to 5 states: where tame layers are found, each crowd of 2 to 7 agents is compared with the bound
K n (n - 1) n / 2, in fractions. Then, layers of examples and of compiled atoms, changed at random: where they are valid,
the workbench, `bin/recheck` and the program say whether they are tame, and so does the definition, read word by word.
Last, each tame example and some compiled leaves: the bound, and the mean of the input that takes longest.
"""

from __future__ import annotations

import importlib.machinery
import importlib.util
import itertools
import json
import random
import sys
from fractions import Fraction
from pathlib import Path
from typing import Any, Iterator, Sequence

TOP = Path(__file__).resolve().parents[1]
sys.path.insert(0, str(TOP))

from common import few  # noqa: E402
from finder.soon import examples  # noqa: E402
from hurleyoak.chain.chains import Chain  # noqa: E402
from hurleyoak.chain.worst import Worst, worst_of  # noqa: E402
from hurleyoak.compiler.whole import compiled  # noqa: E402
from hurleyoak.engine import program  # noqa: E402
from hurleyoak.faults import InputFault  # noqa: E402
from hurleyoak.proof.bundles import Bundle, LeafProof, bundle_of  # noqa: E402
from hurleyoak.proof.checking import layer_fault  # noqa: E402
from hurleyoak.proof.nodes import Layer  # noqa: E402
from hurleyoak.proof.tame import is_tame, is_tame_bundle  # noqa: E402
from hurleyoak.protocol.nets import Leaf, Move, Net  # noqa: E402
from hurleyoak.protocol.predicatereader import read_predicate  # noqa: E402
from hurleyoak.protocol.reactions import Word  # noqa: E402
from hurleyoak.search.limits import clock  # noqa: E402
from hurleyoak.search.taming import tame_layers  # noqa: E402
from hurleyoak.simulation.carrying import Limits, carry_out  # noqa: E402
from hurleyoak.simulation.simulation import Simulation  # noqa: E402
from hurleyoak.text.loaded import LoadedNet  # noqa: E402

NETS = few(1_000, 40)
CHANGES = few(3_000, 60)
MOST_AGENTS = {2: 7, 3: 7, 4: 6, 5: 5}
SECONDS = 4.0  # of a search for layers
SMALL = 60  # moves of a leaf that the slow test takes
GREATEST_CHANGE = 2  # of a weight
SIZES = few(range(10, 3, -1), range(5, 3, -1))  # agents of a chain that is solved for all inputs, if it fits
MANY = few(1_000, 100)  # agents of the runs
RUNS = few(20, 3)
CHANGES_LIMIT = 10_000_000  # of a run
PREDICATES = ["x >= 7", "x - y < 1", "x - y < 10", "3*x - 2*y < 5", "x + 2*y = 1 mod 5", "x = 3 mod 7"]
PAGE, RESULTS = TOP / "docs/develop/performance.md", TOP / "bench/results/tame.txt"
BEGIN, END = "<!-- tame: written by `bench/tame.py --write` -->\n", "<!-- end of tame -->\n"


def silent(move: Move) -> bool:
    """Whether a move changes nothing."""
    return sorted(move[:2]) == sorted(move[2:])


def needs(move: Move, state: int) -> int:
    """How many agents of a state it takes."""
    return move[:2].count(state)


def weigh(weights: Sequence[int], states: Sequence[int]) -> int:
    """What agents in these states weigh."""
    return sum(weights[q] for q in states)


def is_tame_by_definition(leaf: Leaf, layers: Sequence[Layer]) -> bool:
    """`TameLayers` of crates/cert_base, read word by word."""
    states = range(len(leaf.states))
    moves = [[leaf.moves[t] for t in layer.moves if not silent(leaf.moves[t])] for layer in layers]

    def are_apart(i: int, t: Move, u: Move) -> bool:
        earlier = itertools.chain(*moves[:i])
        return any(all(needs(e, z) <= max(needs(t, z), needs(u, z)) for z in states) for e in earlier)

    def was_enabled(i: int, u: Move, t: Move) -> bool:
        left = [needs(u, z) + max(0, needs(t, z) - u[2:].count(z)) for z in states]
        return any(all(needs(e, z) <= left[z] for z in states) for e in itertools.chain(*moves[: i + 1]))

    def stands(i: int, t: Move, u: Move) -> bool:
        gain = weigh(layers[i].weights, u[2:]) - weigh(layers[i].weights, u[:2])
        works = gain > 0 or (gain == 0 and sorted(t[:2]) == sorted(u[:2]))
        return (not works or are_apart(i, t, u)) and was_enabled(i, u, t)

    pairs = ((i, t, u) for i, own in enumerate(moves) for t in own for u in itertools.chain(*moves[i + 1 :]))
    return all(stands(i, t, u) for i, t, u in pairs)


def random_leaf(chance: random.Random) -> Leaf:
    """A leaf of 2 to 5 states; now and then two moves take the same states."""
    states = chance.choice([2, 3, 3, 4, 4, 5])
    share, most = chance.choice([0.3, 0.6, 0.9]), chance.choice([1, 1, 1, 2])
    moves = set[Move]()
    for p, q in itertools.combinations_with_replacement(range(states), 2):
        for _ in range(chance.randint(1, most)):
            r, s = sorted((chance.randrange(states), chance.randrange(states)))
            if chance.random() < share and [r, s] != [p, q]:
                moves.add((p, q, r, s))
    return Leaf(tuple(f"S{q}" for q in range(states)), tuple(sorted(moves)), tuple(range(states)), (True,) * states)


def crowds(states: int, agents: int) -> Iterator[tuple[int, ...]]:
    """All crowds of so many agents."""
    for cuts in itertools.combinations(range(agents + states - 1), states - 1):
        ends = (-1, *cuts, agents + states - 1)
        yield tuple(after - before - 1 for before, after in itertools.pairwise(ends))


def slowest(leaf: Leaf, agents: int) -> tuple[Fraction, int]:
    """The greatest mean of meetings to the end, over all crowds of so many agents, and how many crowds these are."""
    net = Net(tuple(f"x{q}" for q in range(len(leaf.states))), (leaf,), (0,))
    starts: list[dict[Word, int]] = [
        {(q,): k for q, k in enumerate(crowd) if k} for crowd in crowds(len(leaf.states), agents)
    ]
    chain = Chain(net, starts, fractions=True)
    chain.equations.eliminate()
    return max(Fraction(mean) for mean in chain.means()), len(starts)


def random_nets() -> Iterator[str]:
    """Tame random nets, and how near to the bound their slowest crowds come."""
    chance, tame, looked, beyond, nearest, tried = random.Random("tame"), 0, 0, 0, Fraction(0), 0
    while tame < NETS:
        leaf = random_leaf(chance)
        tried += 1
        layers = tame_layers(leaf, clock() + SECONDS) if leaf.active else None
        if layers is None:
            continue
        tame += 1
        bound = sum(layer.spread for layer in layers)
        for agents in range(2, MOST_AGENTS[len(leaf.states)] + 1):
            mean, count = slowest(leaf, agents)
            share = mean / Fraction(bound * agents * agents * (agents - 1), 2)
            looked, beyond, nearest = looked + count, beyond + (share > 1), max(nearest, share)
    yield f"random nets with tame layers: {tame:,} of {tried:,} tried"
    yield f"their crowds, in fractions: {looked:,}, beyond the bound {beyond}; the nearest {float(nearest):.3f} of it"


def recheck() -> Any:
    """bin/recheck as a module."""
    loader = importlib.machinery.SourceFileLoader("recheck", str(TOP / "bin" / "recheck"))
    spec = importlib.util.spec_from_loader("recheck", loader)
    assert spec is not None
    module = importlib.util.module_from_spec(spec)
    loader.exec_module(module)
    return module


def bundles() -> list[Any]:
    """Bundles of examples whose leaves are small and have layers alone."""
    found = [json.loads(path.read_text()) for path in sorted((TOP / "examples").glob("*/bundle.json"))]
    short = [one for one in found if all(len(leaf["moves"]) <= SMALL for leaf in one["net"]["leaves"])]
    return [one for one in short if all("layers" in part for part in one["proof"])]


def layers_of(bundle: Bundle) -> list[tuple[Leaf, Sequence[Layer]]]:
    """The leaves that have layers, with them."""
    both = zip(bundle.net.leaves, bundle.proof)
    return [(leaf, part.layers) for leaf, part in both if isinstance(part, LeafProof)]


def changed(value: Any, chance: random.Random) -> Any:
    """A bundle with a move in another layer, two layers exchanged, one split, or a weight changed."""
    out = json.loads(json.dumps(value))
    for _ in range(chance.choice([1, 1, 2, 3])):
        layers = chance.choice(out["proof"])["layers"]
        kind, layer = chance.randrange(4), chance.choice(layers)
        if kind == 0 and layer["moves"]:
            move = layer["moves"].pop(chance.randrange(len(layer["moves"])))
            chance.choice(layers)["moves"].append(move)
        elif kind == 1:
            chance.shuffle(layers)
        elif kind == 2 and len(layer["moves"]) > 1:
            cut = chance.randrange(1, len(layer["moves"]))
            layers.insert(layers.index(layer), {"moves": layer["moves"][:cut], "weights": list(layer["weights"])})
            layer["moves"] = layer["moves"][cut:]
        else:
            layer["weights"][chance.randrange(len(layer["weights"]))] += chance.choice([-1, 1, GREATEST_CHANGE])
    return out


def changed_layers() -> Iterator[str]:
    """Whether all four say the same of changed layers that are valid."""
    chance, second, given = random.Random("layers"), recheck(), bundles()
    valid, tame, asked, differ = 0, 0, 0, 0
    while valid < CHANGES:
        value = changed(chance.choice(given), chance)
        parts = layers_of(bundle_of(value))
        if any(layer_fault(leaf, layers) for leaf, layers in parts):
            continue
        valid += 1
        slow = all(is_tame_by_definition(leaf, layers) for leaf, layers in parts)
        own = all(is_tame(leaf, layers) for leaf, layers in parts)
        other = all(
            second.are_tame(leaf, part["layers"]) for leaf, part in zip(value["net"]["leaves"], value["proof"])
        )
        tame += slow
        answer = program.check(json.dumps(value))
        said = answer.claim.is_tame if answer.claim.is_certified else slow
        asked += answer.claim.is_certified
        if len({slow, own, other, said}) > 1:
            differ += 1
            yield f"DIFFERS: definition {slow}, workbench {own}, recheck {other}, program {said}: {json.dumps(value)}"
    yield f"changed layers that are valid: {valid:,}, tame {tame:,}, certified {asked:,}, of which the answers differ: {differ}"


def tame_bundles() -> Iterator[tuple[str, Bundle]]:
    """The tame examples by name, and some compiled predicates."""
    for name, bundle in examples():
        if is_tame_bundle(bundle):
            yield f"`{name}`", bundle
    for predicate in PREDICATES:
        names = [name for name in ("x", "y") if name in predicate]
        yield f"`compile {predicate!r}`", compiled(read_predicate(predicate, names), names).bundle


def worst_that_fits(bundle: Bundle) -> Worst | None:
    """The worst input of the most agents whose chain is solved."""
    for agents in SIZES:
        try:
            found = worst_of(LoadedNet("", bundle.net), agents)
        except InputFault:
            continue
        if found is not None:
            return found
    return None


def mean_of_runs(net: Net, proportions: Sequence[int]) -> tuple[int, float]:
    """How many agents some runs have, in the proportions of an input, and the mean of their last changes."""
    total = sum(proportions)
    counts = tuple(MANY * k // total for k in proportions)
    runs = [Simulation(net, counts, seed) for seed in range(RUNS)]
    for run in runs:
        carry_out(run, Limits(changes=CHANGES_LIMIT), None)
    return runs[0].agents, sum(run.last_change for run in runs) / RUNS


def share_told(mean: float, bound: int, agents: int) -> str:
    """A mean, and how much of the bound it is."""
    return f"{mean:,.1f} | {200 * mean / (bound * agents * agents * (agents - 1)):.2g} %"


def rows() -> Iterator[str]:
    """Lines of the table."""
    yield "| Net | K | Agents | Slowest input's mean | Of the bound | Agents | Mean of runs | Of the bound |"
    yield "|---|---:|---:|---:|---:|---:|---:|---:|"
    for name, bundle in tame_bundles():
        found, bound = worst_that_fits(bundle), sum(part.bound for part in bundle.proof)
        if found is None or not any(found.slowest):
            small, proportions = "- | - | -", (1,) * len(bundle.net.names)
        else:
            small = f"{found.agents} | {share_told(float(found.mean), bound, found.agents)}"
            proportions = found.slowest
        agents, mean = mean_of_runs(bundle.net, proportions)
        yield f"| {name} | {bound} | {small} | {agents:,} | {share_told(mean, bound, agents)} |"


def main() -> int:
    """Prints the figures; the status tells whether something is wrong."""
    lines = []
    for line in itertools.chain(random_nets(), changed_layers()):
        print(line, flush=True)
        lines.append(line)
    table = []
    for line in rows():
        print(line, flush=True)
        table.append(line)
    if "--write" in sys.argv:
        RESULTS.write_text("\n".join(lines) + "\n")
        before, _, rest = PAGE.read_text().partition(BEGIN)
        text = "\n".join(table)
        PAGE.write_text(f"{before}{BEGIN}\n{text}\n\n{END}{rest.partition(END)[2]}")
    return int(any("DIFFERS" in line for line in lines) or "beyond the bound 0" not in "".join(lines))


if __name__ == "__main__":
    sys.exit(main())
