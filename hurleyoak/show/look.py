"""How pictures look: colours, labels that don't overlap, figures as people write them."""
from __future__ import annotations

from typing import Sequence

# the palette of Okabe and Ito (2008), told apart by the colour-blind too; yellow is left out, which is faint on white
COLOURS = ["#0072B2", "#D55E00", "#009E73", "#CC79A7", "#E69F00", "#56B4E9", "#000000"]
TRUE_COLOUR, FALSE_COLOUR, GREY = "#0072B2", "#D55E00", "#767676"
TRUE_FILL, FALSE_FILL = "#BFDDEE", "#F7D5BF"


def apart(places: Sequence[float], distance: float, low: float = 0.0, high: float = 1.0) -> list[float]:
    """Places moved as little as need be, so that neighbours are so far apart, from low to high where they fit."""

    def middle(at: float, count: int) -> float:
        half = distance * (count - 1) / 2
        return min(max(at, low + half), max(high - half, low + half))

    order = sorted(range(len(places)), key=lambda i: places[i])
    groups: list[tuple[float, list[int]]] = []
    for i in order:
        groups.append((middle(places[i], 1), [i]))
        while len(groups) > 1:
            (one, below), (two, above) = groups[-2], groups[-1]
            if two - one >= distance * (len(below) + len(above)) / 2:
                break
            members = below + above
            groups[-2:] = [(middle((one * len(below) + two * len(above)) / len(members), len(members)), members)]
    out = [0.0] * len(places)
    for at, members in groups:
        for rank, i in enumerate(members):
            out[i] = at + distance * (rank - (len(members) - 1) / 2)
    return out


def spelled(number: float) -> str:
    """A number with commas, or with three digits where it has a fraction or is very great."""
    if number >= 1e9 or (number != int(number) and number < 1000):
        return f"{number:.3g}"
    return f"{round(number):,}"
