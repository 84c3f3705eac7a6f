"""How a measured number grows with the size: which shape fits best, by least squares of the logarithms."""
from __future__ import annotations

from dataclasses import dataclass
from math import exp, log, sqrt
from typing import Callable, Sequence

LEAST_SIZES = 4
NEAR = 2.0  # where the greatest size is less than so many times the least, shapes look alike
NOISE = 0.03  # medians are rarely better known than to 3 per cent
STEEP = 2.5  # what grows no faster than this power of n is not called exponential
GOOD = 0.4  # a shape that is farther off at some size is no good fit
CLOSE = 2.0  # scores that differ by less do not tell two shapes apart (Akaike 1974)
SURE = 0.95  # the share of intervals that have the power in them

SHAPES: list[tuple[str, Callable[[float], float]]] = [
    ("1", lambda n: 1.0),
    ("log n", lambda n: log(n)),
    ("sqrt n", lambda n: sqrt(n)),
    ("n", lambda n: n),
    ("n log n", lambda n: n * log(n)),
    ("n log^2 n", lambda n: n * log(n) ** 2),
    ("n^1.5", lambda n: n * sqrt(n)),
    ("n^2", lambda n: n * n),
    ("n^2 log n", lambda n: n * n * log(n)),
    ("n^3", lambda n: n**3),
]
EXPONENTIAL = "exponential"
BEYOND = "faster than exponential"
# shapes with a base: what it is raised to
RAISED: dict[str, Callable[[float], float]] = {EXPONENTIAL: lambda n: n, BEYOND: lambda n: n * log(n)}


@dataclass(frozen=True)
class Fit:
    """factor * shape(n), factor * base^n, or factor * base^(n log n). `off` is the greatest relative error; the least
    `score` fits best."""

    shape: str
    factor: float
    base: float
    off: float
    score: float

    def at(self, n: float) -> float:
        """The fitted number at a size."""
        if self.shape in RAISED:
            return self.factor * float(self.base ** RAISED[self.shape](n))
        return self.factor * dict(SHAPES)[self.shape](n)

    @property
    def text(self) -> str:
        """The fitted function in words."""
        if self.shape == EXPONENTIAL:
            return f"{self.factor:.3g} * {self.base:.4g}^n"
        if self.shape == BEYOND:
            return f"{self.factor:.3g} * {self.base:.4g}^(n log n)"
        return f"{self.factor:.3g}" if self.shape == "1" else f"{self.factor:.3g} {self.shape}"


def _fit(shape: str, logs: Sequence[float], slope: float, parameters: int) -> Fit:
    """The fit of a shape; `logs` are the logarithms of the numbers less those of the shape."""
    constant = sum(logs) / len(logs)
    rests = [value - constant for value in logs]
    spread = sum(rest * rest for rest in rests) / len(rests) + NOISE**2
    score = len(rests) * log(spread) + 2 * parameters
    return Fit(shape, exp(constant), exp(slope), exp(max(abs(rest) for rest in rests)) - 1, score)


def slope_of(xs: Sequence[float], ys: Sequence[float]) -> float:
    """The slope of the least-squares line."""
    middle = sum(xs) / len(xs)
    square = sum((x - middle) ** 2 for x in xs)
    return sum((x - middle) * y for x, y in zip(xs, ys)) / square if square else 0.0


def fits_of(sizes: Sequence[float], numbers: Sequence[float]) -> list[Fit]:
    """All shapes, the best first; none for fewer than four sizes. Sizes are over 1, numbers over 0."""
    if len(sizes) < LEAST_SIZES or len(set(sizes)) < LEAST_SIZES:
        return []
    logs = [log(value) for value in numbers]
    fits = [_fit(name, [y - log(f(n)) for n, y in zip(sizes, logs)], 0.0, 1) for name, f in SHAPES]
    slope = slope_of(sizes, logs)
    if slope > 0 and slope_of([log(n) for n in sizes], logs) > STEEP:
        for name, raised in RAISED.items():
            places = [raised(n) for n in sizes]
            slope = slope_of(places, logs)
            fits.append(_fit(name, [y - slope * place for place, y in zip(places, logs)], slope, 2))
    return sorted(fits, key=lambda fit: fit.score)


@dataclass(frozen=True)
class Power:
    """The power of n by which numbers grow, and an interval around it; None where scipy is missing."""

    power: float
    interval: tuple[float, float] | None

    @property
    def text(self) -> str:
        """The power in words."""
        if self.interval is None:
            return f"n^{self.power:.2f}"
        return f"n^{self.power:.2f} ({SURE:.0%} interval {self.interval[0]:.2f} to {self.interval[1]:.2f})"


def power_of(sizes: Sequence[float], numbers: Sequence[float]) -> Power:
    """The fitted power, for three sizes or more: the interval is that of Student's law around the logarithms' line.

    It takes the numbers for a power of n with independent errors; a logarithm beside it shows as a greater power.
    """
    xs, ys = [log(n) for n in sizes], [log(value) for value in numbers]
    power, middle, height = slope_of(xs, ys), sum(xs) / len(xs), sum(ys) / len(ys)
    rest = sum((y - height - power * (x - middle)) ** 2 for x, y in zip(xs, ys)) / (len(xs) - 2)
    error = sqrt(rest / sum((x - middle) ** 2 for x in xs))
    try:
        from scipy.special import stdtrit
    except ImportError:
        return Power(power, None)
    wide = float(stdtrit(len(xs) - 2, (1 + SURE) / 2)) * error
    return Power(power, (power - wide, power + wide))


def _like(best: Fit) -> str:
    """How the best shape grows, in words."""
    told = {EXPONENTIAL: "exponentially", BEYOND: "faster than exponentially", "1": "not at all"}
    return told.get(best.shape, f"like {best.shape}")


def growth_told(what: str, sizes: Sequence[float], numbers: Sequence[float], figure: str = "median") -> str:
    """A sentence on how the medians grow, or another figure."""
    fits = fits_of(sizes, numbers)
    if not fits:
        return f"{what}: {LEAST_SIZES} sizes with a {figure} are needed to tell how it grows"
    span = f"n = {min(sizes):g} to {max(sizes):g}"
    if max(sizes) < NEAR * min(sizes):
        return (
            f"{what}: the sizes are too near each other to tell how it grows ({span}); the greatest is to be"
            f" {NEAR:g} times the least"
        )
    best, next_ = fits[0], fits[1]
    power = power_of(sizes, numbers)
    if best.off > GOOD:
        nearest = f"the nearest, {best.text}, is {best.off:.0%} off"
        return f"{what}: no plain growth fits; {nearest}; as a power, {power.text}; more runs or sizes may tell"
    told = f"{what}: grows {_like(best)}; the {figure} is about {best.text}, at most {best.off:.0%} off ({span})"
    told += f"; twice the agents, {2 ** power.power:.3g} times as many"
    if best.shape not in RAISED:
        told += f"; as a power, {power.text}"
    close = "fits nearly as well" if next_.score - best.score < CLOSE else "comes next"
    return f"{told}; {next_.shape} {close}, {next_.off:.0%} off"


def quantile(values: Sequence[float], part: float) -> float:
    """The quantile of sorted numbers, between two of them in proportion; endless ones stand last."""
    at = part * (len(values) - 1)
    low = int(at)
    high = min(low + 1, len(values) - 1)
    if at == low or values[low] == values[high]:
        return values[low]
    return values[low] + (at - low) * (values[high] - values[low])
