"""Batches: the same distribution as meetings drawn one by one, of crowds, of the last change and of agreement."""
from __future__ import annotations

import os
from collections import Counter
from typing import Callable, Hashable, Sequence

import pytest

from hurleyoak.protocol.nets import Net
from hurleyoak.simulation import batches, carrying
from hurleyoak.simulation.carrying import Limits, carry_out
from hurleyoak.simulation.simulation import MEETINGS, Simulation
from hurleyoak.text.files import load

stats = pytest.importorskip("scipy.stats")

# how many runs of each kind: WORKBENCH_RUNS=200000 for the whole
RUNS = int(os.environ.get("WORKBENCH_RUNS", "3000"))
BIAS = 0.01 if RUNS >= 100_000 else 0.4
DRAWS = 200_000
DOUBT = 1e-4  # a difference that is this unlikely is a mistake

APPROXIMATE = "inputs x: X  y: Y\nX + Y -> X + U\nX + Y -> U + Y\nX + U -> X + X\nY + U -> Y + Y\nyes X\n"
MAJORITY = "inputs x: A  y: B\nA + B -> a + b\nA + b -> A + a\nB + a -> B + b\na + b -> b + b\nyes A a\n"
REMAINDER = (
    "family m in 5\ninputs x: N1\nfor i in 0..4, j in i..4 if (i+j)%5 == 0\n  N{i} + N{j} -> N0 + t\n"
    "for i in 0..4, j in i..4 if (i+j)%5 != 0\n  N{i} + N{j} -> N{(i+j)%5} + f\nN0 + f -> N0 + t\n"
    "for i in 1..4\n  N{i} + t -> N{i} + f\nyes N0 t\n"
)


def net_of(text: str) -> Net:
    """The net of a text, or of the only member of a family."""
    from hurleyoak.text.families import member, members

    chosen = members(text)
    return load(member(text, chosen[0]).text if chosen else text, "the test").net


def always(monkeypatch: pytest.MonkeyPatch) -> None:
    """Batches of any length, for crowds of any size."""
    monkeypatch.setattr(carrying, "LEAST_AGENTS", 2)
    monkeypatch.setattr(batches, "SHORTEST", 1)
    monkeypatch.setattr(batches.Batcher, "pays", lambda self, most: self.share() > 0)


def same(ones: Sequence[Hashable], others: Sequence[Hashable]) -> float:
    """How likely so great a difference of two samples is, where both have one distribution (chi-square)."""
    first, second = Counter(ones), Counter(others)
    common = [kind for kind, k in (first + second).items() if k >= 20]
    rows = [[sample[kind] for kind in common] for sample in (first, second)]
    for row, sample in zip(rows, (ones, others)):
        row.append(len(sample) - sum(row))
    columns = [column for column in zip(*rows) if sum(column)]
    return float(stats.chi2_contingency(list(zip(*columns))).pvalue)


def sample(
    net: Net, counts: Sequence[int], limits: Limits, told: Callable[[Simulation], Hashable], first: int
) -> list[Hashable]:
    """What is told of so many runs."""
    out: list[Hashable] = []
    for seed in range(first, first + RUNS):
        run = Simulation(net, counts, seed)
        carry_out(run, limits, None)
        out.append(told(run))
    return out


@pytest.mark.parametrize(
    "text, counts", [(APPROXIMATE, (7, 5)), (MAJORITY, (4, 5)), (REMAINDER, (9,))], ids=("coin", "majority", "mod5")
)
@pytest.mark.parametrize("meetings", (3, 17))
def test_crowds_after_some_meetings(
    text: str, counts: tuple[int, ...], meetings: int, monkeypatch: pytest.MonkeyPatch
) -> None:
    """Where the crowd is after so many meetings, by batches and one by one."""
    net = net_of(text)
    limits = Limits(MEETINGS, meetings)

    def crowd(run: Simulation) -> Hashable:
        assert run.meetings == meetings or run.is_terminal
        return tuple(run.crowd().items())

    plain = sample(net, counts, limits, crowd, 0)
    always(monkeypatch)
    assert same(plain, sample(net, counts, limits, crowd, RUNS)) > DOUBT


@pytest.mark.parametrize("text, counts", [(MAJORITY, (4, 6)), (REMAINDER, (7,))], ids=("majority", "mod5"))
def test_the_last_change_and_the_agreement(
    text: str, counts: tuple[int, ...], monkeypatch: pytest.MonkeyPatch
) -> None:
    """The meeting of the last change, and the one since which all agree."""
    net = net_of(text)

    def times(run: Simulation) -> Hashable:
        assert run.is_terminal and run.since is not None and run.since <= run.last_change <= run.meetings
        return run.last_change // 12, run.since // 12

    plain = sample(net, counts, Limits(), times, 0)
    always(monkeypatch)
    assert same(plain, sample(net, counts, Limits(), times, RUNS)) > DOUBT


def test_a_planted_bias_is_found(monkeypatch: pytest.MonkeyPatch) -> None:
    """A draw that takes one agent more of the first kind, once in a hundred where there are enough runs, is no longer
    the same."""
    net = net_of(APPROXIMATE)
    limits = Limits(MEETINGS, 6)
    plain = sample(net, (7, 5), limits, lambda run: tuple(run.crowd().items()), 0)
    always(monkeypatch)
    good = batches.Batcher._good

    def biased(self: batches.Batcher, of: int, bad: int, taken: int) -> int:
        drawn = good(self, of, bad, taken)
        return drawn + int(drawn < min(of, taken) and self.generator.random() < BIAS)

    monkeypatch.setattr(batches.Batcher, "_good", biased)
    assert same(plain, sample(net, (7, 5), limits, lambda run: tuple(run.crowd().items()), RUNS)) < DOUBT


def test_a_bias_of_one_percent_in_a_draw_is_found() -> None:
    """200,000 draws against their exact law; and the same where one in a hundred takes one agent more."""
    batcher = batches.Batcher(Simulation(net_of(APPROXIMATE), (7, 5), 3))
    expected = stats.hypergeom(12, 7, 4).pmf(range(5)) * DRAWS

    def likely(bias: float) -> float:
        drawn = Counter(
            k + int(k < 4 and batcher.generator.random() < bias)
            for k in (batcher._good(7, 5, 4) for _ in range(DRAWS))
        )
        return float(stats.chisquare([drawn[k] for k in range(5)], expected).pvalue)

    assert likely(0.0) > DOUBT and likely(0.01) < DOUBT


def test_large_crowds() -> None:
    """A million agents: nobody is lost, the end is terminal, and far fewer steps are taken than there are meetings."""
    run = Simulation(net_of(APPROXIMATE), (600_000, 400_000), 1)
    carry_out(run, Limits(), None)
    assert run.is_terminal and sum(run.counts) == run.agents == 1_000_000 and run.output is True
    assert 0 < run.since <= run.last_change == run.meetings if run.since is not None else False


def test_numbers_that_numpy_refuses(monkeypatch: pytest.MonkeyPatch) -> None:
    """Draws among more than 10^9 agents are cut in two, with the right mean."""
    run = Simulation(net_of(APPROXIMATE), (3_000, 2_000), 1)
    batcher = batches.Batcher(run)
    drawn = [batcher._good(300_000_000, 1_200_000_000, 1_000) for _ in range(400)]
    assert abs(sum(drawn) / len(drawn) - 200) < 3
    monkeypatch.setattr(batches, "DRAW_LIMIT", 55)
    cut = Counter(batcher._good(30, 55, 4) for _ in range(RUNS))
    expected = stats.hypergeom(85, 30, 4).pmf(range(5)) * RUNS
    assert stats.chisquare([cut[k] for k in range(5)], expected).pvalue > DOUBT
