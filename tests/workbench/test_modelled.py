"""Networks in their own time, events and conditions: each against a law or against a plainer way."""
from __future__ import annotations

from fractions import Fraction
from math import comb, exp, isclose, sqrt
from pathlib import Path
from random import Random
from typing import Any, Callable

import pytest

import hurleyoak
from hurleyoak.engine import program
from hurleyoak.faults import InputFault
from hurleyoak.simulation.carrying import Limits
from hurleyoak.simulation.conditions import condition_of
from hurleyoak.simulation.curves import read_trace
from hurleyoak.simulation.events import Crowd, crowd_of, drawn, event_of
from hurleyoak.simulation.simulation import CONDITION, ENDLESS, TERMINAL, TIME, Simulation
from hurleyoak.simulation.staged import Plan, Staged
from hurleyoak.simulation.timeline import Grid, Pace
from hurleyoak.text.files import load, load_path
from hurleyoak.text.loaded import Loaded

from .conftest import EXAMPLES
from .test_commands import pop
from .test_simulate import FAR, far_off

RUNS = 500
MAJORITY = str(EXAMPLES / "majority" / "majority.pop")
EPIDEMIC = str(EXAMPLES / "epidemic" / "epidemic.pop")
# each A decays by itself, and the others only fill the meetings
DECAY = "A -> B : 0.5\nB + C -> 2B : 7\ninputs a: A  c: C\nyes B\n"
PAIRS = "2A -> 2B : 3\ninputs a: A\nyes B\n"


def staged(loaded: Loaded, crowd: dict[str, int], seed: int, **plan: object) -> Staged:
    """A run to its stop."""
    given: dict[str, Any] = {"limits": Limits(TERMINAL, ENDLESS, ENDLESS), **plan}
    run = Staged(loaded, Plan(**given), seed, crowd_of(loaded.net, crowd))
    run.carry_out()
    return run


def by_kolmogorov(values: list[float], law: "object") -> float:
    """The p-value of values by a distribution."""
    stats = pytest.importorskip("scipy.stats")
    return float(stats.kstest(values, law).pvalue)


@pytest.mark.parametrize("volume", [2, 40])
def test_decay_in_its_own_time(volume: int) -> None:
    """The last of five agents decays by the law of the greatest of five exponential times, in each volume."""
    loaded = load(DECAY, "f.crn")
    times = []
    for seed in range(RUNS // 2):
        run = staged(loaded, {"A": 5, "C": 3}, seed, volume=Fraction(volume))
        curve = run.curve("", "")
        alive = [row[curve.names.index("A")] for row in curve.rows]
        times.append(curve.moments[alive.index(0)])
    stats = pytest.importorskip("scipy.stats")
    assert by_kolmogorov(times, lambda t: stats.expon(scale=2).cdf(t) ** 5) > 1e-4


def test_pairs_in_a_volume() -> None:
    """Times are sums of exponential ones by Gillespie's rates: 3 * a * (a - 1) / 2 / V."""
    loaded, volume = load(PAIRS, "f.crn"), 7
    rates = [3 * a * (a - 1) / 2 / volume for a in (6, 4, 2)]
    mean, deviation = sum(1 / r for r in rates), sqrt(sum(1 / r**2 for r in rates))
    found = [staged(loaded, {"A": 6}, s, volume=Fraction(volume)).curve("", "").change_moment for s in range(RUNS)]
    assert abs(sum(found) / RUNS - mean) < FAR * deviation / sqrt(RUNS)
    square = sum((one - mean) ** 2 for one in found) / RUNS
    assert isclose(square, deviation**2, rel_tol=0.25)


def test_a_stop_at_a_time() -> None:
    """Each of eight agents has decayed by then independently, and the first one's time is below it."""
    loaded, until = load(DECAY, "f.crn"), 1.2
    chance = 1 - exp(-0.5 * until)
    expected = {frozenset({("B", k)}): RUNS * comb(8, k) * chance**k * (1 - chance) ** (8 - k) for k in range(9)}
    found: dict[frozenset[tuple[str, int]], int] = {}
    firsts = []
    for seed in range(RUNS):
        run = staged(loaded, {"A": 8}, seed, time=until, volume=Fraction(3))
        assert run.run.ended in (TIME, TERMINAL)
        crowd = {run.run.reactions.name(word): k for word, k in run.run.crowd().items()}
        key = frozenset({("B", crowd.get("B", 0))})
        found[key] = found.get(key, 0) + 1
        curve = run.curve("", "")
        firsts += curve.moments[1:2] if crowd.get("B") else []
        assert all(one <= two <= until for one, two in zip(curve.moments, curve.moments[1:]))
    assert abs(far_off(found, expected)) < FAR
    whole = 1 - exp(-4 * until)  # (the least of eight times, given that it is below the stop)
    stats = pytest.importorskip("scipy.stats")
    law = stats.truncexpon(b=4 * until, scale=0.25)
    assert len(firsts) > RUNS * whole * 0.9 and by_kolmogorov(firsts, law.cdf) > 1e-4


def test_events_happen_at_their_times() -> None:
    """Agents that are added at 1 have less time to decay."""
    loaded = load(DECAY, "f.crn")
    events = (event_of(loaded.net, 1.0, "add 20 A"), event_of(loaded.net, 0.5, "remove 50 percent of C"))
    total = 0
    for seed in range(RUNS // 4):
        run = staged(loaded, {"A": 10, "C": 9}, seed, time=2.0, events=events, volume=Fraction(20))
        crowd = {run.run.reactions.name(word): k for word, k in run.run.crowd().items()}
        total += crowd.get("A", 0)
        assert run.run.agents == 19 - 4 + 20 or crowd.get("C", 0) < 5
    mean, spread = 10 * exp(-1.0) + 20 * exp(-0.5), 0.0
    spread = sqrt(10 * exp(-1.0) * (1 - exp(-1.0)) + 20 * exp(-0.5) * (1 - exp(-0.5)))
    assert abs(total / (RUNS // 4) - mean) < FAR * spread / sqrt(RUNS // 4)


def test_whom_an_event_takes() -> None:
    """Samples without order, by the hypergeometric law."""
    word: Crowd = {(0,): 6, (1,): 4}
    found = [drawn(word, 3, Random(seed))[0,] for seed in range(RUNS)]
    expected = {frozenset({("A", k)}): RUNS * comb(6, k) * comb(4, 3 - k) / comb(10, 3) for k in range(4)}
    counted = {key: found.count(next(iter(key))[1]) for key in expected}
    assert abs(far_off(counted, expected)) < FAR
    assert sum(drawn(word, 8, Random(1)).values()) == 8 and drawn(word, 10, Random(1)) == word


@pytest.mark.parametrize("text", ["A + B < 4", "A = 0 || B = 0", "a - b > 3 && A < 6", "!(a + b < 5)", "a = 1 mod 3"])
def test_a_condition_is_seen_at_once(text: str) -> None:
    """A run stops at the same change as one that looks at each."""
    loaded = load_path(MAJORITY)
    condition = condition_of(loaded.net, text)
    for seed in range(20):
        run = staged(loaded, {"A": 9, "B": 3}, seed, condition=condition).run
        plain = Simulation(loaded.net, (9, 3), seed)
        while not condition.holds(plain) and not plain.ended:
            plain.burst(1)
        assert run.crowd() == plain.crowd() and run.meetings == plain.meetings
        assert run.ended == (CONDITION if condition.holds(plain) else TERMINAL)


def test_a_condition_among_batches() -> None:
    """No batch goes past it."""
    loaded = load_path(EPIDEMIC)
    run = staged(loaded, {"I": 5, "S": 9995}, 3, condition=condition_of(loaded.net, "I >= 6000")).run
    assert run.crowd()[0,] + run.crowd()[1,] == 10_000 and 6000 in run.crowd().values() and run.ended == CONDITION


def test_a_grid_in_a_network_s_time() -> None:
    """The meetings up to its times are those of Poisson's law."""
    network = load(PAIRS, "f.crn").network
    pace = Pace(network, Fraction(5))
    mean = float(pace.at(6)) * 0.5 * 3
    assert pace.at(6) == 3 * 6 * 5 / Fraction(10)
    found = [Grid(pace, 6, 0.5, seed).meetings(3) for seed in range(RUNS)]
    assert abs(sum(found) / RUNS - mean) < FAR * sqrt(mean / RUNS)
    assert Grid(Pace(None, None), 6, 0.5, 1).meetings(3) == 9


def test_a_trace_goes_on(tmp_path: Path) -> None:
    """From its last row, with its meetings and its time."""
    one, two, network = tmp_path / "one", tmp_path / "two", tmp_path / "f.crn"
    network.write_text(DECAY)
    first = pop("simulate", str(network), "A=20", "C=5", "--until", "time 1", "--trace", str(one))
    assert first.returncode == 0 and "on average in volume 24" in first.stdout
    curve = read_trace(one.read_text(), "one")
    second = pop("simulate", str(network), "--from", str(one), "--trace", str(two))
    assert second.returncode == 0
    later = read_trace(two.read_text(), "two")
    assert later.times[0] == curve.meetings and later.moments[0] == pytest.approx(curve.moments[-1])
    assert dict(zip(later.names, later.rows[0])).get("A", 0) == curve.rows[-1][curve.names.index("A")]
    assert pop("plot", str(two), "--text").stdout.splitlines()[-1].endswith("time of the network, in volume 24")
    grid = pop("simulate", str(network), "a=20", "c=5", "--every", "0.5", "--runs", "3", "--trace", str(one))
    assert grid.returncode == 0 and '"time of the network, in volume 24"' in one.read_text()


def test_the_command() -> None:
    states = pop("simulate", MAJORITY, "A=30", "b=3", "--seed", "1")
    assert states.returncode == 0 and "predicate" not in states.stdout and "A 30" in states.stdout
    added = pop("simulate", MAJORITY, "x=30", "y=3", "--at", "5", "add 40 B", "--at", "6", "turn 1 a into A")
    assert added.returncode == 0 and "time" in added.stdout and "for each of 73 agents" in added.stdout
    assert "stopped when the condition held" in pop("simulate", MAJORITY, "x=30", "y=3", "--until", "B = 0").stdout
    timed = pop("simulate", MAJORITY, "x=31", "y=30", "--until", "time 2")
    assert timed.returncode == 0 and "meetings 122, 2 for each" in timed.stdout


@pytest.mark.parametrize(
    "words, status, told",
    [
        (["x=3", "--at", "5", "explode"], program.USAGE, "is no event"),
        (["x=3", "--at", "soon", "add 1 A"], program.USAGE, "`--at` is followed by a time"),
        (["x=3", "--at", "5"], program.USAGE, "followed by its value"),
        (["x=3", "--at", "5", "add 1 Z"], program.REFUSED, "`Z` is no state"),
        (["x=3", "--at", "1", "remove 2 A"], program.REFUSED, "leaves 1 agent"),
        (["x=3", "--at", "1", "remove 9 A"], program.REFUSED, "there are 3 such agents"),
        (["x=3", "--until", "Z = 0"], program.REFUSED, "`Z` is no state"),
        (["x=3", "--until", "= 0"], program.USAGE, "no condition"),
        (["x=3", "--volume", "5"], program.USAGE, "for a reaction network"),
        (["x=3", "--every", "1", "--at", "1", "add 1 A"], program.USAGE, "goes without"),
        (["--from", "/nowhere"], program.REFUSED, "/nowhere"),
    ],
)
def test_faults(words: list[str], status: int, told: str) -> None:
    run = pop("simulate", MAJORITY, *words)
    assert run.returncode == status and told in run.stderr and "Traceback" not in run.stderr


def test_the_library() -> None:
    """The same as arguments, and a run that goes on from another."""
    majority = hurleyoak.load(MAJORITY)
    first = majority.simulate(until="B = 0", x=30, y=3)
    assert first.ended == "condition" and "B" not in first.crowd
    second = majority.simulate(start=first, events=[(50, "add 9 B")], seed=2)
    assert second.terminal and second.agents == 42 and second.times[0] == first.times[-1] and second.right is None
    assert majority.simulate(start={"A": 5, "b": 3}).crowd == {"A": 5, "a": 3}
    decay = hurleyoak.Protocol.parse(DECAY, "decay.crn").simulate(until="time 2", volume=8, a=40)
    assert decay.ended in ("time", "terminal") and decay.times[-1] <= 2
    calls: list[tuple[Callable[[], object], str]] = [
        (lambda: majority.simulate(volume=2, x=3), "no rates"),
        (lambda: majority.simulate(start=first, x=3), "not with both"),
        (lambda: majority.simulate(events=[(1, "explode")], x=3), "is no event"),
    ]
    for call, told in calls:
        with pytest.raises(InputFault, match=told):
            call()
