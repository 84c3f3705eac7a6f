"""Protocols of our own, each as a net with its predicate."""
from __future__ import annotations

from dataclasses import replace

from .making import Case, NamedMove, converts, one
from .protocols import flock, majority


def two_rumours() -> Case:
    """Two rumours, and who has heard both tells all."""
    return one(
        "epidemic",
        "x and y",
        "x >= 1 && y >= 1",
        "x y z",
        ["x", "y", "0", "b"],
        [("x", "y", "b", "b"), ("x", "0", "x", "x"), *converts("b", ["x", "y", "0"])],
        ["x", "y", "0"],
        ["b"],
    )


def broadcast() -> Case:
    """A message and its recall, which wins."""
    return one(
        "epidemic", "no recall", "r < 1", "x r", ["on", "off"], [("on", "off", "off", "off")], ["on", "off"], ["on"]
    )


def interval(low: int, high: int) -> Case:
    """Values are added up to high + 1, and each agent knows the greatest total it heard of."""
    top = high + 1
    states = [f"{v}.{b}" for v in range(top + 1) for b in range(v, top + 1)]
    moves: list[NamedMove] = []
    for i, one_ in enumerate(states):
        for two in states[i:]:
            (v, b), (w, d) = (tuple(map(int, s.split("."))) for s in (one_, two))
            total = min(v + w, top)
            best = max(b, d, total)
            moves.append(
                (one_, two, f"{total}.{best}", f"{v + w - total}.{best}")
                if v and w
                else (one_, two, f"{v}.{best}", f"{w}.{best}")
            )
    return one(
        "interval",
        f"{low} to {high}",
        f"x >= {low} && x <= {high}",
        "x y",
        states,
        moves,
        ["1.1", "0.0"],
        [s for s in states if low <= int(s.split(".")[1]) <= high],
    )


def counter(k: int) -> Case:
    """A helper counts to k, and then tells all; two of its kind would merge."""
    states = [f"H{i}" for i in range(k + 1)] + ["x", "0", "t"]
    moves: list[NamedMove] = [(f"H{i}", "x", f"H{i + 1}", "0") for i in range(k)]
    moves += [(f"H{i}", f"H{j}", f"H{min(k, i + j)}", "0") for i in range(k + 1) for j in range(i, k + 1)]
    return one(
        "helpers",
        f"counter to {k}",
        f"x >= {k}",
        "x",
        states,
        [*moves, *converts(f"H{k}", ["x", "0"], "t")],
        ["x"],
        [f"H{k}", "t"],
        [f"H0"],
    )


def helper_rest(m: int) -> Case:
    """A helper keeps the remainder modulo m."""
    states = [f"H{i}" for i in range(m)] + ["x", "f", "t"]
    moves: list[NamedMove] = [(f"H{i}", "x", f"H{(i + 1) % m}", "f") for i in range(m)]
    moves += [(f"H{i}", f"H{j}", f"H{(i + j) % m}", "f") for i in range(m) for j in range(i, m)]
    moves += [("H0", "f", "H0", "t")] + [(f"H{i}", "t", f"H{i}", "f") for i in range(1, m)]
    return one("helpers", f"mod {m}", f"x = 0 mod {m}", "x", states, moves, ["x"], ["H0", "t"], ["H0"])


def head_start(h: int) -> Case:
    """Majority in which helpers give one side a head start."""
    case = majority(False)
    leaf = case.net.leaves[0]
    moves = [(leaf.states[p], leaf.states[q], leaf.states[r], leaf.states[s]) for p, q, r, s in leaf.moves]
    return one(
        "helpers", f"x > y + {h}", f"y - x < {-h}", "x y", list(leaf.states), moves, ["A", "B"], ["A", "a"], ["B"] * h
    )


def mod_three() -> Case:
    """Remainder 0 modulo 3 in four states: values 1 and 2, and those without a value who say yes or no."""
    moves = [
        ("1", "1", "2", "N"),
        ("1", "2", "Y", "Y"),
        ("2", "2", "1", "N"),
        ("1", "Y", "1", "N"),
        ("2", "Y", "2", "N"),
        ("Y", "N", "Y", "Y"),
    ]
    return one("own", "mod 3 in four states", "x = 0 mod 3", "x y", ["1", "2", "N", "Y"], moves, ["1", "Y"], ["Y"])


def twice() -> Case:
    """x >= 2y: each y stands for two debts, which the x pay."""
    moves = [
        ("A", "B", "C", "b"),
        ("A", "C", "a", "a"),
        ("A", "b", "A", "a"),
        ("B", "a", "B", "b"),
        ("C", "a", "C", "b"),
        ("a", "b", "a", "a"),
    ]
    return one("own", "x >= 2y", "x - 2*y >= 0", "x y", ["A", "B", "C", "a", "b"], moves, ["A", "B"], ["A", "a"])


def same(equal: bool) -> Case:
    """x = y, or its negation: pairs cancel out, and who is left over says so."""
    moves = [("A", "B", "t", "t"), ("A", "t", "A", "f"), ("B", "t", "B", "f"), ("t", "f", "t", "t")]
    return one(
        "own",
        "x = y" if equal else "x != y",
        "x - y = 0" if equal else "x - y != 0",
        "x y",
        ["A", "B", "t", "f"],
        moves,
        ["A", "B"],
        ["t"] if equal else ["A", "B", "f"],
    )


def exactly_one() -> Case:
    """One agent of x alone: a second one is found out, and tells all."""
    return one(
        "own",
        "exactly one",
        "x = 1",
        "x y",
        ["1", "m", "0", "k"],
        [("1", "1", "m", "m"), ("1", "0", "1", "k"), *converts("m", ["1", "0", "k"])],
        ["1", "0"],
        ["1", "k"],
    )


def either() -> Case:
    """Three of x, or two of y."""
    moves: list[NamedMove] = [
        ("x", "x", "X", "0"),
        ("x", "X", "d", "d"),
        ("X", "X", "d", "d"),
        ("y", "y", "d", "d"),
        *converts("d", ["x", "X", "y", "0"]),
    ]
    return one(
        "own", "x >= 3 or y >= 2", "x >= 3 || y >= 2", "x y", ["x", "X", "y", "0", "d"], moves, ["x", "y"], ["d"]
    )


def alarm(k: int) -> Case:
    """A sensor network's alarm: at least k sensors are warm, and nobody has reset it."""
    base = flock(k)
    leaf = base.net.leaves[0]
    moves = [(leaf.states[p], leaf.states[q], leaf.states[r], leaf.states[s]) for p, q, r, s in leaf.moves]
    return one(
        "own",
        f"alarm at {k}",
        f"warm >= {k} && reset < 1",
        "warm cold reset",
        [*leaf.states, "R"],
        [*moves, *converts("R", leaf.states)],
        ["1", "0", "R"],
        [leaf.states[k]],
    )


def giving_back(case: Case, top: str, met: str, made: str) -> Case:
    """A protocol whose agent at the top makes one that it meets another first, in the place of converting it at
    once."""
    leaf = case.net.leaves[0]
    at = {name: q for q, name in enumerate(leaf.states)}
    pair_met = {at[top], at[met]}
    moves = tuple(
        (m[0], m[1], at[top], at[made]) if set(m[:2]) == pair_met and m[0] != m[1] else m for m in leaf.moves
    )
    name = f"{case.name}: {top} + {met} -> {top} + {made}"
    net = replace(case.net, leaves=(replace(leaf, moves=moves),))
    return replace(case, family=f"{case.family} that gives back", name=name, net=net)


def restless_flock() -> Case:
    """Agents add up to 4; who has 4 goes on in two looks, and gives 2 to empty agents."""
    moves = [("1", "1", "2", "0"), ("2", "2", "4", "0")]
    moves += [("4", "4", "4", "F"), ("4", "F", "4", "4"), ("F", "F", "4", "4")]
    for look, other in (("4", "F"), ("F", "4")):
        moves += [(look, "0", look, "2"), (look, "1", look, other), (look, "2", look, other)]
    return one(
        "flock that gives back",
        "x >= 4 in two looks",
        "x >= 4",
        "x y",
        ["0", "1", "2", "4", "F"],
        moves,
        ["1", "0"],
        ["4", "F"],
    )


def telling_majority(ties: bool, head_start: int = 0) -> Case:
    """Majority whose ties are told by tellers, whom a winner silences; helpers may give y a head start."""
    winner, loser = ("B", "A") if ties else ("A", "B")
    own, other = winner.lower(), loser.lower()
    moves = [
        ("A", "B", "T", "T"),
        (winner, "T", winner, own),
        (winner, other, winner, own),
        (loser, own, loser, other),
        ("T", own, "T", other),
    ]
    predicate = "y - x < 1" if ties else f"y - x < {-head_start}"
    yes = ["A", "T", "a"] if ties else ["A", "a"]
    return one(
        "own", "tellers", predicate, "x y", ["A", "B", "T", "a", "b"], moves, ["A", "B"], yes, ["B"] * head_start
    )


def telling_same(equal: bool) -> Case:
    """x = y, or its negation: pairs that cancel out become tellers, whom anyone left over silences."""
    moves = [
        ("A", "B", "T", "T"),
        ("A", "T", "A", "f"),
        ("B", "T", "B", "f"),
        ("A", "t", "A", "f"),
        ("B", "t", "B", "f"),
        ("T", "f", "T", "t"),
    ]
    yes = ["T", "t"] if equal else ["A", "B", "f"]
    predicate = "x - y = 0" if equal else "x - y != 0"
    return one("own", "tellers of equality", predicate, "x y", ["A", "B", "T", "t", "f"], moves, ["A", "B"], yes)


def telling_mod_three() -> Case:
    """Remainder 0 modulo 3 without leaders: two that add up to 0 become tellers."""
    moves = [
        ("1", "1", "2", "f"),
        ("2", "2", "1", "f"),
        ("1", "2", "T", "T"),
        ("1", "T", "1", "f"),
        ("2", "T", "2", "f"),
        ("1", "t", "1", "f"),
        ("2", "t", "2", "f"),
        ("T", "f", "T", "t"),
    ]
    return one("own", "tellers modulo 3", "x = 0 mod 3", "x", ["1", "2", "T", "t", "f"], moves, ["1"], ["T", "t"])


def telling_twice() -> Case:
    """x >= 2y: an A is worth 1, a B -2, a C -1, and what cancels out becomes a teller."""
    moves = [
        ("A", "B", "C", "T"),
        ("A", "C", "T", "T"),
        ("B", "T", "B", "b"),
        ("C", "T", "C", "b"),
        ("B", "a", "B", "b"),
        ("C", "a", "C", "b"),
        ("A", "b", "A", "a"),
        ("T", "b", "T", "a"),
    ]
    states = ["A", "B", "C", "T", "a", "b"]
    return one("own", "tellers of twice", "2*y - x < 1", "x y", states, moves, ["A", "B"], ["A", "T", "a"])
