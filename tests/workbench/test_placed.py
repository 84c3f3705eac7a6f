"""Graphs, rounds, maps and the mean field: each against a law or against a plainer way. bench/exact.py has chains."""
from __future__ import annotations

import os
from math import comb, exp, isclose, sqrt
from pathlib import Path

import pytest

import hurleyoak
from hurleyoak.faults import AskFault, InputFault
from hurleyoak.protocol.reactions import Reactions
from hurleyoak.simulation.carrying import Limits, go_on
from hurleyoak.simulation.graphs import Graph, graph_of
from hurleyoak.simulation.maps import read_map
from hurleyoak.simulation.meanfield import course
from hurleyoak.simulation.placing import Placing
from hurleyoak.simulation.simulation import ENDLESS, MEETINGS, TERMINAL, Simulation
from hurleyoak.text.files import load, load_path

from .conftest import EXAMPLES
from .test_commands import pop
from .test_simulate import FAR, far_off

RUNS = 800
MAJORITY = str(EXAMPLES / "majority" / "majority.pop")
EPIDEMIC = str(EXAMPLES / "epidemic" / "epidemic.pop")
APPROXIMATE = str(EXAMPLES / "approximate-majority" / "approximate-majority.pop")
SIZES = {"ring": 6, "star": 6, "grid 3x2": 6, "random 3": 6}


@pytest.mark.parametrize("text, edges", [("ring", 6), ("star", 5), ("grid 3x2", 7), ("random 3", 9)])
def test_graphs(text: str, edges: int) -> None:
    if text.startswith("random"):
        pytest.importorskip("networkx")
    made = graph_of(text, 6, 1)
    assert len(made.edges) == edges and made.parts == 1 and len(made.places()) == 6
    assert len({frozenset(edge) for edge in made.edges}) == edges and "complete" in made.told()


def test_graphs_that_are_none(tmp_path: Path) -> None:
    file = tmp_path / "edges"
    file.write_text("a b  # an edge\nb c\n\nc a\nd e\n b a\n")
    made = graph_of(str(file), 5, 0)
    assert made.parts == 2 and len(made.edges) == 4 and made.names == tuple("abcde") and "2 parts" in made.told()
    for text, agents in ((str(file), 4), ("grid 2x2", 5), ("random 2", 8), ("random 3", 7), ("/no/such", 3)):
        with pytest.raises(InputFault):
            graph_of(text, agents, 0)
    with pytest.raises(AskFault):
        graph_of("grid two", 4, 0)
    file.write_text("a a\n")
    with pytest.raises(InputFault, match="edges:1"):
        graph_of(str(file), 1, 0)


def test_all_edges_are_the_plain_simulation() -> None:
    """On the complete graph the last change has the law of the plain simulation."""
    loaded = load_path(APPROXIMATE)
    stats = pytest.importorskip("scipy.stats")
    edges = tuple((u, v) for v in range(6) for u in range(v))
    placing, start = Placing(Graph("all", 6, edges), False), Reactions(loaded.net).start((4, 2))
    one, two = [], []
    for seed in range(RUNS):
        run, plain = placing.make(loaded.net, start, seed), Simulation(loaded.net, (4, 2), 10**6 + seed)
        go_on(run, None, Limits(TERMINAL, ENDLESS, ENDLESS), ())
        go_on(plain, None, Limits(TERMINAL, ENDLESS, ENDLESS), ())
        one.append(run.last_change)
        two.append(plain.last_change)
    assert stats.ks_2samp(one, two).pvalue > 1e-4


def test_an_epidemic_on_a_line_of_meetings() -> None:
    """On a ring both ends of the ill part go on, one of n edges each: n / 2 meetings for each of n - 2, n for the
    last."""
    loaded, n = load_path(EPIDEMIC), 8
    placing, start = Placing(graph_of("ring", n, 0), False), Reactions(loaded.net).start((1, n - 1))
    times = []
    for seed in range(RUNS):
        run = placing.make(loaded.net, start, seed)
        go_on(run, None, Limits(TERMINAL, ENDLESS, ENDLESS), ())
        times.append(run.last_change)
    chance = 2 / n
    mean, spread = (n - 1) / chance, sqrt((n - 1) * (1 - chance)) / chance
    assert abs(sum(times) / RUNS - mean) < FAR * spread / sqrt(RUNS)


@pytest.mark.parametrize("agents", [6, 7, 400])
def test_a_round_is_a_random_matching(agents: int) -> None:
    """How many of the ill meet somebody well, among all matchings."""
    if agents > 300:
        pytest.importorskip("numpy")
    loaded, ill = load_path(EPIDEMIC), 3
    start, placing = Reactions(loaded.net).start((ill, agents - ill)), Placing(None, True)
    found: dict[frozenset[tuple[str, int]], int] = {}
    for seed in range(RUNS):
        run = placing.make(loaded.net, start, seed)
        go_on(run, None, Limits(MEETINGS, 1, ENDLESS), ())
        key = frozenset({("I", run.yes)})
        found[key] = found.get(key, 0) + 1
        assert run.meetings == 1 and sum(run.crowd().values()) == agents

    def matchings(n: int) -> int:
        return 1 if n < 2 else (n - 1) * matchings(n - 2) if n % 2 == 0 else n * matchings(n - 1)

    whole = matchings(agents)
    expected: dict[frozenset[tuple[str, int]], float] = {}
    for pairs in (0, 1):  # (of the ill, so many are paired with each other)
        ways = comb(ill, 2) if pairs else 1
        left, well = ill - 2 * pairs, agents - ill
        for out in range(min(left, agents % 2) + 1):  # (one that stays over may be ill)
            met = left - out
            rest = well - met
            if agents % 2 and not out and rest % 2 == 0 or rest < 0:
                continue
            orders = comb(left, out)
            for at in range(met):
                orders *= well - at
            key = frozenset({("I", ill + met)})
            expected[key] = expected.get(key, 0.0) + RUNS * ways * orders * matchings(rest) / whole
    if agents < 300:
        assert isclose(sum(expected.values()), RUNS, rel_tol=1e-9)
        assert abs(far_off(found, expected)) < FAR
    else:
        assert max(found, key=lambda key: found[key]) == frozenset({("I", 6)})


def test_tokens_that_swap_move() -> None:
    """A swap changes no count, and goes on for ever on a graph; without one it is silent."""
    loaded = load("inputs x: T  y: E\nT + E -> E + T\nyes T\n", "swap.pop")
    start = Reactions(loaded.net).start((1, 5))
    run = Placing(graph_of("ring", 6, 0), False).make(loaded.net, start, 1)
    go_on(run, None, Limits(MEETINGS, 500, ENDLESS), ())
    assert run.changes > 50 and run.crowd() == start and not run.is_terminal
    assert Simulation(loaded.net, (1, 5), 1).is_terminal


def test_agents_that_go_leave_the_graph() -> None:
    run = hurleyoak.load(EPIDEMIC).simulate(graph="star", events=[(0.5, "remove 3 S")], seed=3, x=1, y=9)
    assert run.agents == 7
    with pytest.raises(InputFault, match="has its place"):
        hurleyoak.load(EPIDEMIC).simulate(graph="ring", events=[(0.1, "add 3 S")], x=1, y=9)
    turned = hurleyoak.load(EPIDEMIC).simulate(graph="ring", events=[(0.1, "turn 2 S into I")], x=1, y=9)
    assert turned.crowd == {"I": 10} and turned.terminal


def test_a_map_is_kept_and_drawn(tmp_path: Path) -> None:
    path = str(tmp_path / "map.csv")
    made = pop(
        "simulate", MAJORITY, "x=12", "y=8", "--graph", "grid", "5x4", "--seed", "2", "--map", path, "--until", "40"
    )
    assert made.returncode == 0 and "complete graph" in made.stdout, made.stderr
    kept = read_map(Path(path).read_text(), path)
    assert kept.width == 5 and len(kept.rows) == 20 and kept.times[0] == 0 and kept.text() == Path(path).read_text()
    shown = pop("plot", path, "--text").stdout
    assert "* A" in shown and "grid 5x4" in shown
    if pytest.importorskip("matplotlib"):
        picture = str(tmp_path / "map.svg")
        assert pop("plot", path, "-o", picture).returncode == 0 and os.path.getsize(picture) > 5_000
    for broken in ("# map {}\n", Path(path).read_text()[:-20], "# map [\n"):
        with pytest.raises(InputFault, match="no whole map"):
            read_map(broken, "m")


def test_words_of_graphs() -> None:
    few = [MAJORITY, "x=3", "y=3"]
    for words in (
        ["--map", "m"],
        ["--graph", "ring", "--volume", "3"],
        ["--graph", "grid", "4x4"],
        ["--graph", "grid"],
    ):
        assert pop("simulate", *few, *words).returncode in (1, 2), words
    made = pop("simulate", *few, "--graph", "ring", "--rounds", "--every", "1", "--until", "30")
    assert "mean  deviation" in made.stdout and "graph ring" in made.stdout, made.stderr
    assert pop("sweep", MAJORITY, "x=3", "y=2", "--graph", "ring", "--by", "run").returncode == 1
    made = pop("sweep", EPIDEMIC, "x=1", "y=5,9", "--graph", "star", "--rounds", "--runs", "3")
    assert "rounds to the end" in made.stdout, made.stderr


def test_many_runs_are_the_same_by_any_number_of_processes() -> None:
    protocol = hurleyoak.load(MAJORITY)
    one, three = (protocol.ensemble(1, runs=7, seed=5, jobs=jobs, x=6, y=2) for jobs in (1, 3))
    assert one == three and len(one) == 7
    assert one.quantile("A", 0)[0] == 6 == one.mean("A")[0] and one.deviation("A")[0] == 0
    placed = protocol.ensemble(1, runs=3, meetings=40, graph="ring", jobs=2, x=6, y=2)
    assert placed.agents == 8
    with pytest.raises(InputFault, match="quantile"):
        one.quantile("A", 2)


def test_a_graph_of_networkx() -> None:
    networkx = pytest.importorskip("networkx")
    run = hurleyoak.load(EPIDEMIC).simulate(graph=networkx.path_graph(7), x=1, y=6)
    assert run.crowd == {"I": 7}


def test_the_mean_field_of_an_epidemic() -> None:
    """The logistic curve: d i / d t = 2 i (1 - i), since each pair meets both ways."""
    pytest.importorskip("scipy")
    times = [0.0, 0.5, 1.0, 2.0, 4.0]
    epidemic = load_path(EPIDEMIC)
    ill, well = epidemic.net.leaves[0].inputs
    made = course(epidemic, {(ill,): 10, (well,): 990}, times)
    for time, value in zip(times, made.of(epidemic.net.leaves[0].states[ill])):
        share = 0.01 * exp(2 * time) / (1 + 0.01 * (exp(2 * time) - 1))
        assert isclose(value, 1000 * share, rel_tol=1e-5)


def test_the_mean_field_of_a_network() -> None:
    """2A -> 2B by k: d a / d t = - k a^2 / V; and what decays alone."""
    pytest.importorskip("scipy")
    times = [0.0, 1.0, 3.0]
    pairs = load("2A -> 2B : 0.5\ninputs a: A\nyes B\n", "f.crn")
    assert course(pairs, {(0,): 100}, times).of("A") == pytest.approx([100 / (1 + 0.5 * 100 * t / 99) for t in times])
    alone = load("A -> B : 0.7\ninputs a: A\nyes B\n", "f.crn")
    assert course(alone, {(0,): 100}, times).of("A") == pytest.approx([100 * exp(-0.7 * t) for t in times])


def test_plots_of_the_mean_field(tmp_path: Path) -> None:
    pytest.importorskip("scipy")
    runs, picture = str(tmp_path / "r.csv"), str(tmp_path / "p.svg")
    assert pop("simulate", APPROXIMATE, "x=60", "y=40", "--every", "1", "--runs", "3", "--trace", runs).returncode == 0
    made = pop("plot", runs, "--ode", APPROXIMATE, "--text")
    assert "dots: the mean field" in made.stdout, made.stderr
    assert pop("plot", "--ode", APPROXIMATE, "X=50", "Y=30", "B=20", "--text", "--to", "5").returncode == 0
    pytest.importorskip("matplotlib")
    for words in ([runs, "--phase", "X,Y"], ["x=60", "y=40", "--phase", "X,Y"], [runs]):
        made = pop("plot", *words, "--ode", APPROXIMATE, "-o", picture)
        assert made.returncode == 0 and os.path.getsize(picture) > 5_000, made.stderr
        assert 'id="trail0"' in Path(picture).read_text() or 'id="field0"' in Path(picture).read_text()
    assert pop("plot", "x=3", "-o", picture).returncode == 1
    assert pop("plot", runs, "--phase", "X", "-o", picture).returncode == 1
    assert pop("plot", runs, "--phase", "X,Q", "-o", picture).returncode == 2


FAMILY = "family p in 2..8\ninputs x: X  y: Y\nX + Y -> X + X @ {p}/10\nX + Y -> Y + Y @ {10 - p}/10\nyes X\npredicate x - y > 0\n"


@pytest.mark.parametrize("name", ["f.pop", "f.crn"])
def test_a_scan_over_chances(name: str, tmp_path: Path) -> None:
    """A member's chance to win is that of a gambler's ruin, and `plot --over` has it by the parameter."""
    pytest.importorskip("scipy")
    family, table = tmp_path / name, str(tmp_path / "s.csv")
    text = (
        FAMILY
        if name == "f.pop"
        else "family p in 2..4\nA + B -> 2A : {p}\nA + B -> 2B : 3\ninputs x: A  y: B\nyes A\n"
    )
    family.write_text(text)
    ratio = 6 / 4 if name == "f.pop" else 3 / 4
    won = (1 - ratio**3) / (1 - ratio**5)
    assert f"true {won:.6g}" in pop("exact", str(family), "--with", "p=4", "x=3", "y=2").stdout
    made = pop("sweep", str(family), "x=3", "y=2", "--runs", "4", "--csv", table)
    assert made.returncode == 0, made.stderr
    shown = pop("plot", table, "--over", "p", "--text").stdout.splitlines()
    assert shown[0].split()[0] == "p" and [line.split()[0] for line in shown[1:]][:3] == ["2", "3", "4"]
    assert pop("plot", table, "--over", "q", "--text").returncode == 2
    pytest.importorskip("matplotlib")
    picture = str(tmp_path / "s.svg")
    assert pop("plot", table, "--over", "p", "-o", picture).returncode == 0 and "scan0" in Path(picture).read_text()
