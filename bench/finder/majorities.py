"""Fast exact majorities: an agent's value is halved until it cancels, and a slow majority stands behind it where that
fails."""
from __future__ import annotations

from typing import Callable, Optional

from .making import Case, NamedMove, one

Value = Optional[tuple[int, Optional[int]]]  # sign and level, no level for 0; None where an error was seen
State = tuple[Value, str]
Rule = Callable[[State, State], tuple[State, State]]

SLOW = {("A", "B"): ("a", "b"), ("A", "b"): ("A", "a"), ("B", "a"): ("B", "b"), ("b", "a"): ("b", "b")}


def slow(u: str, v: str) -> tuple[str, str]:
    """Majority of four states."""
    if (v, u) in SLOW:
        s, r = SLOW[v, u]
        return r, s
    return SLOW.get((u, v), (u, v))


def _halved(first: Value, second: Value, most: int) -> tuple[Value, Value] | None:
    """What two values become; None where the rule is the other way round, or nothing changes."""
    if first is None or second is None:
        return (None, None) if first != second else None
    (s, i), (t, j) = first, second
    if i is None:
        return ((-1, None), (-1, None)) if j is None and s != t else None
    if j is None:
        if i < most:
            return (s, i + 1), (s, i + 1)
        return (first, (s, None)) if s != t else None
    if s == t or i > j:
        return None
    if i == j:
        return (s, None), (t, None)
    return ((s, j), (s, None)) if j == i + 1 else (None, None)


def _rule(most: int) -> Rule:
    def rule(a: State, b: State) -> tuple[State, State]:
        (m, u), (n, v) = a, b
        u, v = slow(u, v)
        made = _halved(m, n, most)
        if made is None:
            back = _halved(n, m, most)
            made = (back[1], back[0]) if back else (m, n)
        return (made[0], u), (made[1], v)

    return rule


def _closure(start: list[State], rule: Rule) -> list[State]:
    states = list(start)
    for i, a in enumerate(states):  # (the list grows meanwhile)
        for b in states[: i + 1]:
            states += [s for s in dict.fromkeys([*rule(a, b), *rule(b, a)]) if s not in states]
    return states


def name(state: State) -> str:
    """As `+0.A`: sign, level, and the slow majority's state."""
    value, letter = state
    if value is None:
        return f"E.{letter}"
    sign, level = value
    return f"{'+' if sign > 0 else '-'}{'z' if level is None else level}.{letter}"


def cancel_split(most: int) -> Case:
    """Cancelling and splitting down to a level (as Doty, Eftekhari, Gasieniec, Severson, Stachowiak and Uznanski 2021
    do), without a clock: opposite signs two levels apart are an error, behind which the slow majority's answer
    counts."""
    rule = _rule(most)
    states = _closure([((1, 0), "A"), ((-1, 0), "B")], rule)
    moves: list[NamedMove] = []
    for i, a in enumerate(states):
        moves += [(name(a), name(b), *map(name, rule(a, b))) for b in states[: i + 1]]  # type: ignore[misc]
    yes = [name(s) for s in states if (s[1] in "Aa" if s[0] is None else s[0][0] > 0)]
    starts = [name(s) for s in states[:2]]
    return one(
        "fast majority", f"{most} levels, backup", "x - y > 0", "x y", list(map(name, states)), moves, starts, yes
    )
