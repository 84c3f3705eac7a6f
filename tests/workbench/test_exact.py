"""Chains of small crowds: against a chain of other code, against laws, and between floats and fractions."""
from __future__ import annotations

from fractions import Fraction
from math import isclose, isinf
from pathlib import Path

import pytest

import hurleyoak
from hurleyoak.chain.answers import Answer, Number
from hurleyoak.chain.band import Band
from hurleyoak.chain.chains import Chain
from hurleyoak.chain.fitting import too_large
from hurleyoak.chain.rules import Rules
from hurleyoak.chain.space import Space, TooLarge
from hurleyoak.chain.worst import worst_of
from hurleyoak.engine import program
from hurleyoak.protocol.reactions import Reactions
from hurleyoak.text.files import load, load_path
from hurleyoak.text.loaded import Loaded

from .conftest import EXAMPLES
from .test_commands import pop
from .test_simulate import ORDERED, exact as exact_by_words

np = pytest.importorskip("numpy")
pytest.importorskip("scipy")

MAJORITY = str(EXAMPLES / "majority" / "majority.pop")
EPIDEMIC = str(EXAMPLES / "epidemic" / "epidemic.pop")
COIN = "inputs x: X  y: Y\nX + Y -> X + U\nX + Y -> U + Y\nX + U -> X + X\nY + U -> Y + Y\nyes X\n"
CHANCE = "inputs x: A  y: B\nA + B -> A + A @ 0.7\nA + B -> B + B @ 0.2\nyes A\n"
ORDER = "inputs x: A  y: B\nA , B -> A , A @ 0.8\nB , A -> B , B\nyes A\n"
# one agent of each kind decides: P and Q turn round for ever, or U and V stop
SPLIT = "inputs x: A\nA + A -> P + Q @ 0.25\nA + A -> U + U @ 0.75\nP + Q -> Q + P\nP + Q -> R + S\nR + S -> P + Q\nyes U\n"
ROUND = "inputs x: P\nP + P -> Q + Q\nQ + Q -> P + P\nyes P Q\n"


def of(text: str) -> Loaded:
    """A protocol of a file or of a text."""
    return load(text, "text") if "\n" in text else load_path(text)


def answer(text: str, counts: tuple[int, ...], fractions: bool = False, meetings: int | None = None) -> Answer:
    """What the chain says of an input."""
    net = of(text).net
    start = Reactions(net).start(counts)
    return Chain(net, [start], fractions).answer(start, meetings)


CASES = [
    (MAJORITY, (3, 5)),
    (COIN, (5, 4)),
    (CHANCE, (5, 4)),
    (ORDER, (5, 4)),
    (str(EXAMPLES / "found/mod-three.pop"), (3, 2)),
]


@pytest.mark.parametrize("text, counts", CASES, ids=["majority", "coin", "chance", "order", "mod-three"])
@pytest.mark.parametrize("fractions", [False, True])
def test_against_a_chain_of_other_code(text: str, counts: tuple[int, ...], fractions: bool) -> None:
    """That of the bench, which is made of the moves alone: the crowd after some meetings, and the mean to the end."""
    from bench.exact import Chain as Other

    leaf = of(text).net.leaves[0]
    start = [0] * len(leaf.states)
    for state, k in [*zip(leaf.inputs, counts), *((state, 1) for state in leaf.helpers)]:
        start[state] += k
    other = Other(leaf, tuple(start))
    kept, ended = other.times()
    meetings = min(sum(start), len(kept) - 1)
    found = answer(text, counts, fractions, meetings)
    assert found.crowds == len(other.crowds) and found.after is not None
    for crowd, chance in found.after.crowds:
        at = other.numbers[tuple(crowd.get(state, 0) for state in leaf.states)]
        assert abs(chance - kept[meetings][at]) < 1e-12
    assert abs(found.after.ended - ended[meetings]) < 1e-12
    assert isclose(found.mean, float((1 - ended).sum()), rel_tol=1e-4)
    square = float(((1 - ended) * (2 * np.arange(len(ended)) + 1)).sum())
    assert isclose(found.deviation**2 + float(found.mean) ** 2, square, rel_tol=1e-3)


def test_the_epidemic_s_law() -> None:
    """Its mean and variance are sums over the infected."""
    agents = 30
    parts = [Fraction(agents * (agents - 1), 2 * k * (agents - k)) for k in range(1, agents)]
    found = answer(EPIDEMIC, (1, agents - 1), fractions=True)
    assert found.mean == sum(parts) and found.variance == sum(part * part - part for part in parts)
    by_floats = answer(EPIDEMIC, (1, agents - 1))
    assert isclose(by_floats.mean, found.mean, rel_tol=1e-12)
    assert isclose(by_floats.deviation, found.deviation, rel_tol=1e-9)
    assert [end.crowd for end in found.ends] == [{"I": agents}] and found.ends[0].chance == 1


def test_a_drunkard_s_chances() -> None:
    """A agents win by 7 to 2 at each change: the gambler's ruin."""
    found = answer(CHANCE, (5, 4), fractions=True)
    odds = Fraction(2, 7)
    assert found.outputs[True] == (1 - odds**5) / (1 - odds**9)
    assert sum(found.outputs.values()) == 1 == found.terminal


@pytest.mark.parametrize("text, counts", CASES[:4], ids=["majority", "coin", "chance", "order"])
def test_floats_are_right_to_many_digits(text: str, counts: tuple[int, ...]) -> None:
    one, two = answer(text, counts), answer(text, counts, fractions=True)
    assert isclose(one.mean, two.mean, rel_tol=1e-12) and isclose(one.deviation, two.deviation, rel_tol=1e-9)
    for a, b in zip(one.ends, two.ends):
        assert a.crowd == b.crowd and isclose(a.chance, b.chance, rel_tol=1e-12)


def test_a_mean_past_all_digits() -> None:
    """By subtractions it would come out below 0."""
    found = answer(MAJORITY, (50, 40))
    assert isclose(found.mean, 1.2938589463243834e43, rel_tol=1e-9)
    assert isclose(found.ends[0].chance, 1.0, rel_tol=1e-12)


def test_elimination_solves_the_equations() -> None:
    """Both ways, of a matrix with steps in all directions."""
    from scipy.sparse import csr_matrix

    random = np.random.default_rng(4)
    inside = random.random((12, 12)) * (random.random((12, 12)) < 0.3)
    np.fill_diagonal(inside, 0)
    out, right = random.random(12) * 1e-3 + 1e-6, random.random(12)
    band = Band(csr_matrix(inside), out)
    band.eliminate()
    matrix = np.diag(inside.sum(axis=1) + out) - inside
    assert np.allclose(band.solve(right), np.linalg.solve(matrix, right), rtol=1e-8)
    assert np.allclose(band.solve_left(right), np.linalg.solve(matrix.T, right), rtol=1e-8)


def test_two_leaves_and_their_order() -> None:
    """Crowds of tuples, as the distribution by all pairs of words has them."""
    found = answer(ORDERED, (4, 3), meetings=3)
    expected = exact_by_words(of(ORDERED).net, (4, 3), 3)
    assert found.after is not None
    made = {frozenset(crowd.items()): chance for crowd, chance in found.after.crowds}
    assert made.keys() == expected.keys() and all(isclose(made[crowd], expected[crowd]) for crowd in made)


def test_what_never_comes_to_rest() -> None:
    """Closed classes are ends where no crowd is terminal; beside terminal ones they make the mean infinite."""
    found = answer(ROUND, (6,), fractions=True)
    assert found.terminal == 0 and [(end.size, end.output, end.chance) for end in found.ends] == [(4, True, 1)]
    assert found.mean == 0 == found.variance
    mixed = answer(SPLIT, (2,), fractions=True)
    assert mixed.terminal == Fraction(3, 4) and mixed.outputs == {True: Fraction(3, 4), False: Fraction(1, 4), None: 0}
    assert mixed.is_mixed and isinf(mixed.mean_to_end) and mixed.mean == 1


def test_no_two_crowds_have_one_key() -> None:
    """With more words than a number has room for, keys are sums by chance, and steps are compared."""
    net = of(str(EXAMPLES / "flock-of-1024/flock-of-1024.pop")).net
    start = Reactions(net).start((40,))
    rules = Rules(net, start)
    space = Space(rules, [rules.counts(start)])
    assert not space.is_plain and len({tuple(row) for row in space.crowds.tolist()}) == len(space)
    assert space.number(rules.counts(start)) == 0


def test_the_worst_input() -> None:
    """That of all inputs one by one."""
    loaded = of(MAJORITY)
    found = worst_of(loaded, 6)
    assert found is not None and found.inputs == 7 and found.right is not None and isclose(found.right, 1)
    each: dict[tuple[int, ...], Number] = {(x, 6 - x): answer(MAJORITY, (x, 6 - x)).mean for x in range(7)}
    assert isclose(found.mean, max(each.values())) and isclose(each[found.slowest], found.mean)
    wrong = worst_of(of(CHANCE + "computes x > y\n"), 5, fractions=True)
    assert wrong is not None and wrong.weakest == (1, 4) or wrong is not None and wrong.weakest == (2, 3)
    assert wrong.right == min(answer(CHANCE, (x, 5 - x), True).outputs[x > 5 - x] for x in range(6))
    assert worst_of(of(SPLIT), 2) is not None and isinf(getattr(worst_of(of(SPLIT), 2), "mean"))


def test_what_is_too_large_says_what_fits(monkeypatch: pytest.MonkeyPatch) -> None:
    """Crowds are counted before memory is taken."""
    monkeypatch.setattr("hurleyoak.chain.space.COUNT_LIMIT", 4 * 300)
    net = of(MAJORITY).net
    with pytest.raises(TooLarge):
        Chain(net, [Reactions(net).start((60, 50))])
    told = str(too_large(net, (60, 50), False, lambda _: None))
    assert told == "the chain of 110 agents is too large: it has about 3e+03 crowds; `x=17 y=15` fits, with 256 crowds"


def test_the_command(tmp_path: Path) -> None:
    run = pop("exact", MAJORITY, "x=5", "y=4")
    assert run.returncode == 0 and run.stderr == ""
    lines = run.stdout.splitlines()
    assert lines[1] == "end A 1 a 8: chance 1, output true" and lines[-1] == "computed of the chain, and not proved"
    assert lines[3] == "predicate true: right with chance 1" and "mean 84510.2, deviation 84808.3" in lines[4]
    after = pop("exact", "x=1", "y=3", "--after", "1", "--fractions", "--top", "1", text=Path(EPIDEMIC).read_text())
    assert "  S 3 I 1: chance 1/2" in after.stdout and "1 other crowds: chance 1/2" in after.stdout
    table = pop("exact", EPIDEMIC, "--agents", "2..6")
    assert table.returncode == 0 and "mean of the slowest input: grows like" in table.stdout


@pytest.mark.parametrize(
    "words, status, told",
    [
        (["x=5", "--agents", "2..4"], program.USAGE, "without counts"),
        (["--agents", "1..4"], program.USAGE, "from 2 on"),
        (["--agents", "few"], program.USAGE, "from 2 on"),
        (["x=1"], program.REFUSED, "1 agent"),
        (["x=3", "y=90", "--after", "1000000000000"], program.REFUSED, "meetings fit"),
        (["x=3", "--top", "0"], program.USAGE, "`--top`"),
    ],
)
def test_faults(words: list[str], status: int, told: str) -> None:
    run = pop("exact", EPIDEMIC, *words)
    assert run.returncode == status and told in run.stderr and "Traceback" not in run.stderr


def test_the_library(monkeypatch: pytest.MonkeyPatch) -> None:
    """The same numbers as values."""
    majority = hurleyoak.load(MAJORITY)
    found = majority.exact(x=3, y=2, fractions=True, after=5)
    assert found.mean == Fraction(2635, 33) and found.outputs[True] == 1 and found.right == 1
    assert found.ends[0].crowd == {"A": 1, "a": 4} and found.after is not None and "not proved" in found._repr_html_()
    table = majority.worst(range(2, 5))
    assert [row["agents"] for row in table] == [2, 3, 4] and table.rows[1]["x"] == 2
    monkeypatch.setattr("hurleyoak.chain.space.COUNT_LIMIT", 4 * 300)
    with pytest.raises(hurleyoak.InputFault, match="too large"):
        majority.exact(x=100, y=100)
