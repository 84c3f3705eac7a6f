"""The simulation by counts against exact distributions, and against the meetings of the program's runs."""
from __future__ import annotations

import subprocess
from collections import Counter
from fractions import Fraction
from functools import lru_cache
from itertools import product
from math import sqrt
from pathlib import Path
from random import Random
from time import process_time
from typing import Iterable, Mapping

import pytest
from hypothesis import given, settings, strategies as st

from hurleyoak.engine import program
from hurleyoak.simulation.geometric import skipped
from hurleyoak.simulation.journals import Agents, meetings_of
from hurleyoak.protocol.reactions import Reactions, Word
from hurleyoak.simulation.carrying import Limits, carry_out
from hurleyoak.simulation.simulation import AGREED, MEETINGS, SETTLED, TERMINAL, Simulation
from hurleyoak.text.files import load, load_path
from hurleyoak.text.loaded import strict_bundle
from hurleyoak.protocol.nets import Net

from .conftest import EXAMPLES, TOP, needs_program
from .test_commands import pop

SAMPLES = 4000
PICKED = 100_000  # meetings of the program that are cut into blocks
FAR = 4.0  # standard deviations; a right simulation is farther off once in 30,000 tests

# two leaves in which two agents of one state meet: here it matters which of them is the first
ORDERED = """combine  one && two
leaf     one
inputs   x: A  y: A
A + A -> B + C
C + C -> A + C
B + C -> A + A
yes      A B C
leaf     two
inputs   x: S  y: T
S + S -> U + T
T + T -> U + S
U + * -> S + *
yes      S T U
"""

Crowd = frozenset[tuple[str, int]]


def net_at(path: str) -> Net:
    """A net of the examples, or the one above."""
    return load(ORDERED, "ordered").net if path == "ordered" else load_path(str(EXAMPLES / path)).net


def far_off(found: Mapping[Crowd, int], expected: Mapping[Crowd, float]) -> float:
    """How far Pearson's chi-square is off, in standard deviations (Wilson and Hilferty); cells below 5 are joined."""
    rest_found, rest_expected = sum(k for crowd, k in found.items() if crowd not in expected), 0.0
    square, cells = 0.0, -1
    for crowd, mean in expected.items():
        if mean < 5:
            rest_found, rest_expected = rest_found + found.get(crowd, 0), rest_expected + mean
            continue
        square, cells = square + (found.get(crowd, 0) - mean) ** 2 / mean, cells + 1
    if rest_expected:
        square, cells = square + (rest_found - rest_expected) ** 2 / rest_expected, cells + 1
    else:
        assert rest_found == 0
    if cells <= 0:
        return 0.0
    return float(((square / cells) ** (1 / 3) - (1 - 2 / (9 * cells))) / sqrt(2 / (9 * cells)))


def exact(net: Net, counts: tuple[int, ...], meetings: int) -> dict[Crowd, float]:
    """The distribution of crowds after so many meetings, by all ordered pairs of words."""
    reactions = Reactions(net)
    spread: dict[frozenset[tuple[Word, int]], Fraction] = {frozenset(reactions.start(counts).items()): Fraction(1)}
    for _ in range(meetings):
        then: dict[frozenset[tuple[Word, int]], Fraction] = {}
        for crowd, part in spread.items():
            agents = sum(k for _, k in crowd)
            for (one, k), (two, m) in product(crowd, crowd):
                weight = k * (m - (one == two))
                after = Counter(dict(crowd))
                after.subtract((one, two))
                after.update(reactions.after(one, two) or (one, two))
                key = frozenset((word, n) for word, n in after.items() if n)
                then[key] = then.get(key, Fraction(0)) + part * Fraction(weight, agents * (agents - 1))
        spread = {crowd: part for crowd, part in then.items() if part}
    return {frozenset((reactions.name(word), k) for word, k in crowd): float(part) for crowd, part in spread.items()}


def simulated(net: Net, counts: tuple[int, ...], meetings: int, seeds: Iterable[int]) -> Counter[Crowd]:
    """The crowds after so many meetings, over seeds."""
    out: Counter[Crowd] = Counter()
    for seed in seeds:
        run = Simulation(net, counts, seed)
        carry_out(run, Limits(MEETINGS, meetings), None)
        assert run.meetings == meetings or run.ended == TERMINAL
        out[frozenset((run.reactions.name(word), k) for word, k in run.crowd().items())] += 1
    return out


@lru_cache(maxsize=None)
def picks(agents: int) -> list[tuple[int, int]]:
    """The pairs of a long run of the program: they depend on the number of agents and the seed alone."""
    bundle = strict_bundle(load_path(str(EXAMPLES / "majority/majority.pop"))).line()
    count = agents // 2  # (x has a lead of one: this takes long)
    out: list[tuple[int, int]] = []
    seed = 0
    while len(out) < PICKED:
        answer = program.ask(
            ["run", "--turns", str(PICKED), "--seed", str(seed)], f"{bundle}\ncrowd x={agents - count} y={count}\n"
        )
        lines = answer.text.splitlines()[3:]
        out += [(a, b) for a, b, _ in meetings_of(lines, agents, "run", 4)]
        seed += 1
    return out


def by_program(net: Net, counts: tuple[int, ...], meetings: int) -> Counter[Crowd]:
    """The crowds after so many meetings of the program."""
    agents = Agents(net, counts).agents
    pairs = picks(agents)
    out: Counter[Crowd] = Counter()
    for at in range(0, len(pairs) - meetings + 1, meetings):
        crowd = Agents(net, counts)
        for a, b in pairs[at : at + meetings]:
            crowd.meet(a, b)
        out[frozenset(crowd.crowd().items())] += 1
    return out


CASES = [
    ("majority/majority.pop", (5, 4), 12),
    ("epidemic/epidemic.pop", (1, 8), 20),
    ("flock/flock.pop", (4, 5), 8),
    ("found/twice.pop", (6, 3), 12),
    ("remainder/remainder.pop", (3, 4), 6),
    ("ordered", (4, 3), 4),
    ("helper/helper.pop", (8,), 10),
]


@pytest.mark.parametrize("path, counts, meetings", CASES, ids=[case[0] for case in CASES])
def test_crowds_after_so_many_meetings_are_distributed_as_they_should_be(
    path: str, counts: tuple[int, ...], meetings: int
) -> None:
    net = net_at(path)
    expected = exact(net, counts, meetings)
    assert abs(sum(expected.values()) - 1) < 1e-9
    found = simulated(net, counts, meetings, range(SAMPLES))
    assert set(found) <= set(expected)
    assert abs(far_off(found, {crowd: SAMPLES * part for crowd, part in expected.items()})) < FAR


@needs_program
@pytest.mark.parametrize("path, counts, meetings", CASES, ids=[case[0] for case in CASES])
def test_the_program_s_meetings_have_the_same_distribution(path: str, counts: tuple[int, ...], meetings: int) -> None:
    net = net_at(path)
    expected = exact(net, counts, meetings)
    found = by_program(net, counts, meetings)
    total = sum(found.values())
    assert set(found) <= set(expected)
    assert abs(far_off(found, {crowd: total * part for crowd, part in expected.items()})) < FAR


def test_a_wrong_distribution_is_seen() -> None:
    net = net_at("majority/majority.pop")
    expected = {crowd: SAMPLES * part for crowd, part in exact(net, (5, 4), 12).items()}
    assert far_off(simulated(net, (5, 4), 11, range(SAMPLES)), expected) > FAR
    ordered = {crowd: SAMPLES * part for crowd, part in exact(net_at("ordered"), (4, 3), 4).items()}
    assert far_off(simulated(net_at("ordered"), (4, 3), 3, range(SAMPLES)), ordered) > FAR


def test_geometric_draws_are_geometric() -> None:
    random = Random(5)
    good, among = 3, 7
    found = Counter(frozenset({("skipped", skipped(good, among, random.getrandbits))}) for _ in range(SAMPLES))
    expected = {frozenset({("skipped", k)}): SAMPLES * good / among * (1 - good / among) ** k for k in range(80)}
    assert abs(far_off(found, expected)) < FAR


@given(st.integers(1, 10**18), st.integers(1, 10**6), st.integers(0, 2**53 - 1))
@settings(deadline=None, max_examples=200)
def test_a_geometric_draw_is_the_floor_of_the_quotient(among: int, good: int, first: int) -> None:
    """The draw k is right exactly when (1 - p)^(k + 1) < U <= (1 - p)^k; here by logarithms of 60 digits."""
    from decimal import Decimal, localcontext

    good = min(good, max(1, among // 2))
    if among < 2:
        return
    drawn: list[tuple[int, int]] = []

    def bits(size: int) -> int:
        drawn.append((size, Random(first + len(drawn)).getrandbits(size) if drawn else first))
        return drawn[-1][1]

    found = skipped(good, among, bits)
    with localcontext() as context:
        context.prec = 120
        value, scale = Decimal(0), Decimal(1)
        for size, part in drawn:
            scale /= 1 << size
            value += part * scale
        rate = (1 - Decimal(good) / among).ln()
        middle = (value + scale / 2).ln() / rate
        assert found <= middle < found + 1


@given(st.sampled_from([case[:2] for case in CASES]), st.integers(0, 2**63 - 1), st.integers(1, 60))
@settings(deadline=None, max_examples=60)
def test_weights_stay_those_of_the_counts(case: tuple[str, tuple[int, ...]], seed: int, changes: int) -> None:
    net = net_at(case[0])
    run = Simulation(net, case[1], seed)
    run.burst(changes)
    assert sum(run.counts) == run.agents
    assert run.yes == sum(k for word, k in run.crowd().items() if run.reactions.output(word))
    for i, word in enumerate(run.words):
        met = [j for j, other in enumerate(run.words) if run.reactions.after(word, other)]
        assert sorted(run.partners[i]) == met
        assert run.sums[i] == sum(run.counts[j] for j in met) - (i in met)


def test_many_words_are_dropped_and_kept_right() -> None:
    leaf = "leaf l{0}\ninputs x: A\nA + A -> B + C\nB + B -> A + C\nC + C -> B + A\nyes A\n"
    net = load("combine l0 && l1 && l2 && l3 && l4\n" + "".join(leaf.format(i) for i in range(5)), "five").net
    run = Simulation(net, (60,), 1)
    for _ in range(40):
        run.burst(50)
        assert sum(run.counts) == 60 and min(run.counts) >= 0
        assert all(run.sums[i] == sum(run.counts[j] for j in row) - (i in row) for i, row in enumerate(run.partners))
    assert len(run.words) <= run.room + 4


def test_until() -> None:
    net = net_at("majority/majority.pop")
    one, two = Simulation(net, (5, 30), 1), Simulation(net, (5, 30), 1)
    carry_out(one, Limits(), None)
    carry_out(two, Limits(AGREED), False)
    assert one.ended == TERMINAL and one.output is False
    assert two.ended == AGREED and two.output is False and two.since == two.meetings <= one.meetings
    three = Simulation(net, (5, 30), 1)
    carry_out(three, Limits(MEETINGS, 10), None)
    assert three.ended == MEETINGS and three.meetings == 10 >= three.last_change


def test_until_outputs_stay() -> None:
    """A protocol that never falls silent ends where no output can change any more, and not where all agree before."""
    net = load(
        "inputs x: A y: B\nA + B -> C + C\nC + C -> D + E\nD + E -> E + D\nD + D -> E + E\nyes A C E D\n", "t"
    ).net
    run = Simulation(net, (5, 30), 1)
    carry_out(run, Limits(SETTLED), None)
    assert run.ended != SETTLED and run.output is None
    run = Simulation(net, (30, 0), 1)
    carry_out(run, Limits(SETTLED), None)
    assert (run.ended, run.meetings) == (TERMINAL, 0)
    stirring = load(
        "inputs x: A y: B\nA + A -> C + C\nC + C -> A + A\nA + B -> A + A\nC + B -> C + C\nyes A C\n", "t"
    ).net
    run = Simulation(stirring, (5, 30), 1)
    carry_out(run, Limits(SETTLED), None)
    assert run.ended == SETTLED and run.output and run.since == run.meetings and not run.is_terminal


def test_a_million_changes_take_less_than_ten_seconds() -> None:
    run = Simulation(net_at("majority/majority.pop"), (10**5 + 1, 10**5), 3)
    start = process_time()
    run.burst(50_000)
    assert run.changes == 50_000 and process_time() - start < 0.5


def test_a_thousand_million_agents() -> None:
    run = Simulation(net_at("epidemic/epidemic.pop"), (1, 10**9 - 1), 7)
    carry_out(run, Limits(changes=1000), None)
    assert sum(run.counts) == 10**9 and run.crowd()[1,] == 1001 and run.meetings > 10**9


def test_the_command(tmp_path: Path) -> None:
    epidemic = str(EXAMPLES / "epidemic/epidemic.pop")
    run = pop("simulate", epidemic, "x=1", "y=99", "--seed", "1")
    assert run.returncode == 0 and run.stderr == ""
    lines = run.stdout.splitlines()
    assert lines[0] == "I 100" and lines[3].startswith("terminal") and lines[-1] == "simulated, and not proved"
    assert lines[-2] == "predicate true: they agree"
    assert run.stdout == pop("simulate", "y=99", "--seed", "1", "x=1", text=Path(epidemic).read_text()).stdout
    assert pop("simulate", epidemic, "x=1", "y=99", "--until", "3").returncode == 0
    short = pop("simulate", epidemic, "x=1", "y=99", "--changes", "3")
    assert short.returncode == program.UNDECIDED and "output mixed" in short.stdout
    net = pop("net", epidemic).stdout
    assert "they differ" in pop("simulate", "x=1", "y=9", "--predicate", "x = 5", text=net).stdout
    assert "predicate" not in pop("simulate", "x=1", "y=9", text=net).stdout


@pytest.mark.parametrize(
    "words, status, told",
    [
        (["x=1"], program.REFUSED, "1 agent"),
        (["x=1", "z=4"], program.REFUSED, "`z` is no variable"),
        (["x=1", "x=2"], program.USAGE, "two counts"),
        (["x=one"], program.USAGE, "no count"),
        (["x=9999999999"], program.REFUSED, "1,000,000,000"),
        (["x=5", "--until", "never"], program.USAGE, "`--until`"),
        (["x=5", "--seed", "-1"], program.USAGE, "`--seed`"),
        (["x=5", "--predicate", "x >"], program.REFUSED, "expected a variable or a number"),
        (["x=5", "--trace", "/nowhere/file"], program.WRITE_FAULT, "/nowhere/file"),
        (["x=5", "--odd"], program.USAGE, "`--odd`"),
        (["x=5", "--runs", "3"], program.USAGE, "`--runs` goes with `--every`"),
    ],
)
def test_faults(words: list[str], status: int, told: str) -> None:
    run = pop("simulate", str(EXAMPLES / "epidemic/epidemic.pop"), *words)
    assert run.returncode == status and told in run.stderr and "Traceback" not in run.stderr


LASTING = """
import sys
from hurleyoak.cli import progress
from hurleyoak.simulation import carrying
from hurleyoak.__main__ import start
progress.LONG, carrying.CHANGE_LIMIT, carrying.CHANGES_AN_AGENT = 0.0, 50_000, 1
sys.argv[1:] = ["simulate", "-", "x=9", *sys.argv[1:]]
sys.exit(start())
"""


@pytest.mark.parametrize("words, told", [([], 1), (["--changes", "50000"], 0), (["--until", "99999"], 0)])
def test_a_run_that_goes_on_says_so_at_a_pipe(words: list[str], told: int) -> None:
    """Once, where no end was asked for."""
    run = subprocess.run(
        ["/usr/bin/python3", "-c", LASTING, *words],
        input="inputs x: A\nA + A -> B + B\nB + B -> A + A\nyes A\n",
        cwd=TOP,
        capture_output=True,
        text=True,
        check=False,
    )
    assert run.stderr.count("changes; the run goes on; `--until` names an earlier end") == told
    assert run.stderr.count("\n") == told and "not terminal" in run.stdout
