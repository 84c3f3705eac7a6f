"""Protocols of the literature, each as a net with its predicate."""
from __future__ import annotations

from .making import Case, NamedMove, converts, one


def epidemic() -> Case:
    """One agent that knows tells all (Angluin and others 2006)."""
    return one("epidemic", "x >= 1", "x >= 1", "x y", ["S", "I"], [("S", "I", "I", "I")], ["I", "S"], ["I"])


def majority(tie: bool) -> Case:
    """Majority with four states, with either answer at a tie (Blondin, Esparza, Jaax and Meyer 2017)."""
    moves = [
        ("A", "B", "a", "b"),
        ("A", "b", "A", "a"),
        ("B", "a", "B", "b"),
        ("a", "b", "a", "a") if tie else ("b", "a", "b", "b"),
    ]
    return one(
        "majority",
        f"tie {str(tie).lower()}",
        "y - x <= 0" if tie else "y - x < 0",
        "x y",
        ["A", "B", "a", "b"],
        moves,
        ["A", "B"],
        ["A", "a"],
    )


def flock(c: int, rest: bool = False) -> Case:
    """Agents add up their values, and who has c tells all (Angluin and others 2006); with `rest`, what is over c stays
    with the other."""
    states = [str(i) for i in range(c + 1)]
    moves: list[NamedMove] = []
    for i in range(1, c):
        for j in range(i, c):
            if i + j < c:
                moves.append((states[i], states[j], "0", states[i + j]))
            else:
                moves.append((states[i], states[j], states[c], states[i + j - c] if rest else states[c]))
    return one(
        "flock with rest" if rest else "flock",
        f"x >= {c}",
        f"x >= {c}",
        "x y",
        states,
        [*moves, *converts(states[c], states)],
        ["1", "0"],
        [states[c]],
    )


def tower(c: int) -> Case:
    """Two agents on one floor: one goes up (after Blondin, Esparza and Jaax 2018)."""
    states = [str(i) for i in range(c + 1)]
    moves = [(states[i], states[i], states[i + 1], states[i]) for i in range(1, c)]
    return one(
        "tower",
        f"x >= {c}",
        f"x >= {c}",
        "x y",
        states,
        [*moves, *converts(states[c], states)],
        ["1", "0"],
        [states[c]],
    )


def log_flock(k: int) -> Case:
    """Powers of 2 up to 2^k (Blondin, Esparza and Jaax 2018)."""
    states = ["0"] + [str(1 << i) for i in range(k + 1)]
    moves = [(states[i], states[i], states[i + 1], "0") for i in range(1, k + 1)]
    return one(
        "flock of 2^k",
        f"x >= {1 << k}",
        f"x >= {1 << k}",
        "x y",
        states,
        [*moves, *converts(states[-1], states)],
        ["1", "0"],
        [states[-1]],
    )


def binary_flock(c: int) -> Case:
    """Any threshold in some 2 log c states: powers of 2, and the sums of the highest bits of c (after Blondin, Esparza
    and Jaax 2018)."""
    bits = [i for i in range(c.bit_length() - 1, -1, -1) if c >> i & 1]
    top = bits[0]
    sums = [sum(1 << b for b in bits[: j + 1]) for j in range(len(bits))]
    powers = [1 << i for i in range(top)]
    end = str(c)
    states = ["0", *map(str, powers), *map(str, sums)]
    moves: list[NamedMove] = [(str(v), str(v), str(2 * v), "0") for v in powers]
    for j, total in enumerate(sums[:-1]):
        for v in powers:
            if v == 1 << bits[j + 1]:
                moves.append((str(total), str(v), str(sums[j + 1]), "0"))
            elif v > 1 << bits[j + 1]:
                moves.append((str(total), str(v), end, end))
        moves += [(str(total), str(other), end, end) for other in sums[:-1]]
    return one(
        "binary flock", f"x >= {c}", f"x >= {c}", "x y", states, [*moves, *converts(end, states)], ["1", "0"], [end]
    )


def threshold(a: tuple[int, ...], c: int) -> Case:
    """Angluin's threshold with output bits: leaders add up values cut at s (Angluin and others 2006)."""
    s = max(max(abs(k) for k in a), abs(c) + 1)
    states = [f"{kind}{o}{u}" for kind in "LF" for o in "ft" for u in range(-s, s + 1)]

    def part(name: str) -> tuple[bool, int]:
        return name[0] == "L", int(name[2:])

    moves: list[NamedMove] = []
    for i, one_ in enumerate(states):
        for two in states[i:]:
            (leads, u), (also, v) = part(one_), part(two)
            if leads or also:
                q = max(-s, min(s, u + v))
                bit = "t" if q < c else "f"
                moves.append((one_, two, f"L{bit}{q}", f"F{bit}{u + v - q}"))
    names = "x y z".split()[: len(a)]
    text = " + ".join(f"{k}*{n}" for k, n in zip(a, names)).replace("+ -", "- ")
    return one(
        "Angluin's threshold",
        f"{text} < {c}",
        f"{text} < {c}",
        " ".join(names),
        states,
        moves,
        [f"L{'t' if k < c else 'f'}{k}" for k in a],
        [n for n in states if n[1] == "t"],
    )


def remainder(m: int, r: int) -> Case:
    """Angluin's remainder with output bits (Angluin and others 2006)."""
    states = [f"L{o}{u}" for o in "ft" for u in range(m)] + ["Ff", "Ft"]
    moves: list[NamedMove] = []
    leaders = states[:-2]
    for i, one_ in enumerate(leaders):
        for two in leaders[i:]:
            u = (int(one_[2:]) + int(two[2:])) % m
            bit = "t" if u == r else "f"
            moves.append((one_, two, f"L{bit}{u}", f"F{bit}"))
        bit = "t" if int(one_[2:]) == r else "f"
        moves += [(one_, f, f"L{bit}{one_[2:]}", f"F{bit}") for f in ("Ff", "Ft")]
    return one(
        "Angluin's remainder",
        f"mod {m}",
        f"x + 2*y = {r} mod {m}",
        "x y",
        states,
        moves,
        [f"L{'t' if k % m == r else 'f'}{k % m}" for k in (1, 2)],
        [n for n in states if n[1] == "t"],
    )


def average(m: int) -> Case:
    """Average-and-conquer majority: odd values up to m are averaged, and who has none follows (Alistarh, Gelashvili
    and Vojnovic 2015)."""
    values = list(range(-m, m + 1, 2))
    name = {v: f"{v:+d}" for v in values}
    moves: list[NamedMove] = []
    for i, u in enumerate(values):
        for v in values[i:]:
            half = (u + v) // 2
            if abs(u) == abs(v) == 1:
                moves += [(name[u], name[v], "-0", "+0")] if u != v else []
            elif half % 2:
                moves.append((name[u], name[v], name[half], name[half]))
            else:
                moves.append((name[u], name[v], name[half - 1], name[half + 1]))
        moves.append((name[u], "-0", name[u], "+0") if u > 0 else (name[u], "+0", name[u], "-0"))
    moves.append(("-0", "+0", "-0", "-0"))
    return one(
        "average-and-conquer",
        f"m = {m}",
        "y - x < 0",
        "x y",
        [*name.values(), "-0", "+0"],
        moves,
        [name[m], name[-m]],
        [n for v, n in name.items() if v > 0] + ["+0"],
    )
