"""What two agents become when they meet: in the program's runs each leaf takes its first move that matches, in a
simulation any of them."""
from __future__ import annotations

from fractions import Fraction
from itertools import product
from math import gcd, lcm, prod
from typing import Sequence

from .laws import PLAIN
from .nets import Leaf, Net, combined

Word = tuple[int, ...]  # an agent: a state for each leaf


def leaf_table(leaf: Leaf) -> dict[tuple[int, int], tuple[int, int]]:
    """For the states of the first agent and of the second what they become; pairs that stay are left out."""
    table: dict[tuple[int, int], tuple[int, int]] = {}
    for t in leaf.active:
        p, q, r, s = leaf.moves[t]
        if (p, q) not in table:
            table[p, q] = (r, s)
            table.setdefault((q, p), (s, r))
    return table


def _matching(leaf: Leaf, swaps: bool = False) -> dict[tuple[int, int], list[int]]:
    """For the states of the initiator and of the responder the numbers of the moves that match. Silent ones are among
    them if they have a chance, or if swaps are wanted and they are one."""
    out: dict[tuple[int, int], list[int]] = {}
    for t, (p, q, r, s) in enumerate(leaf.moves):
        law = leaf.laws[t] if leaf.laws else PLAIN
        if t in leaf.active_set or law.chance is not None or swaps and p != q and (r, s) == (q, p):
            out.setdefault((p, q), []).append(t)
            if p != q and not law.ordered:
                out.setdefault((q, p), []).append(t)
    return out


def too_likely(leaf: Leaf, t: int) -> bool:
    """Whether the chances of all moves for the states of one are more than 1, or leave nothing for those without a
    chance."""
    p, q = leaf.moves[t][:2]
    found = _matching(leaf)
    for both in ((p, q), (q, p)):
        chances = [leaf.laws[u].chance for u in found.get(both, [])]
        given = sum((chance for chance in chances if chance is not None), Fraction(0))
        if given > 1 or given == 1 and None in chances:
            return True
    return False


Outcome = tuple[tuple[int, int], Fraction]
Way = tuple[int, tuple[int, int], Fraction]


def leaf_ways(leaf: Leaf, swaps: bool = False) -> dict[tuple[int, int], list[Way]]:
    """For the states of the initiator and of the responder the moves they may take, what they become, and by which
    chance.

    Moves without a chance have equal parts of what those with one leave.
    """
    out: dict[tuple[int, int], list[Way]] = {}
    for (p, q), moves in _matching(leaf, swaps).items():
        laws = [leaf.laws[t] if leaf.laws else PLAIN for t in moves]
        left = 1 - sum((law.chance for law in laws if law.chance is not None), Fraction(0))
        free = sum(law.chance is None for law in laws)
        out[p, q] = []
        for t, law in zip(moves, laws):
            r, s = leaf.moves[t][2:] if leaf.moves[t][:2] == (p, q) else leaf.moves[t][:1:-1]
            out[p, q].append((t, (r, s), left / free if law.chance is None else law.chance))
    return out


def leaf_outcomes(leaf: Leaf, swaps: bool = False) -> dict[tuple[int, int], list[Outcome]]:
    """The same without the moves; where chances are left, nothing happens instead, so that they make 1."""
    out: dict[tuple[int, int], list[Outcome]] = {}
    for both, ways in leaf_ways(leaf, swaps).items():
        out[both] = [(made, chance) for _, made, chance in ways]
        left = 1 - sum((chance for _, _, chance in ways), Fraction(0))
        if left:
            out[both].append((both, left))
    return out


class Reactions:
    """The reactions of a net, by words; with those that only swap two states where it matters who has which."""

    def __init__(self, net: Net, swaps: bool = False) -> None:
        self.net = net
        self.tables = [leaf_table(leaf) for leaf in net.leaves]
        self.choices = [leaf_outcomes(leaf, swaps) for leaf in net.leaves]

    def after(self, first: Word, second: Word) -> tuple[Word, Word] | None:
        """The two words after a meeting; None where it changes nothing.

        Which agent is the first matters only where a move takes two agents of one state: it becomes the third one.
        """
        ones, twos = [], []
        changed = False
        for table, p, q in zip(self.tables, first, second):
            made = table.get((p, q))
            if made is not None:
                changed = True
                p, q = made
            ones.append(p)
            twos.append(q)
        return (tuple(ones), tuple(twos)) if changed else None

    def reacts(self, first: Word, second: Word) -> bool:
        """Whether a meeting of the two may change something, whichever of them begins it."""
        return any((p, q) in table or (q, p) in table for table, p, q in zip(self.choices, first, second))

    def options(self, first: Word, second: Word) -> list[tuple[tuple[Word, Word], int]]:
        """The two words after a meeting that the first one begins, each with its share as a whole number; none where
        nothing changes."""
        each = [table.get((p, q)) for table, p, q in zip(self.choices, first, second)]
        if not any(each):
            return []
        out = []
        for one in product(*(some or [(stay, Fraction(1))] for some, stay in zip(each, zip(first, second)))):
            chance = prod(part for _, part in one)
            out.append(((tuple(made[0] for made, _ in one), tuple(made[1] for made, _ in one)), Fraction(chance)))
        whole = lcm(*(chance.denominator for _, chance in out))
        shares = [int(chance * whole) for _, chance in out]
        common = gcd(*shares)
        return [(made, share // common) for (made, _), share in zip(out, shares)]

    def both_ways(self, first: Word, second: Word) -> set[Word]:
        """The words that come of a meeting of the two, whichever of them begins it."""
        made = self.options(first, second) + self.options(second, first)
        return {word for words, _ in made for word in words}

    def output(self, word: Word) -> bool:
        """What an agent with this word outputs."""
        return combined(self.net.combine, [leaf.outputs[q] for leaf, q in zip(self.net.leaves, word)])

    def name(self, word: Word) -> str:
        """The names of the states, joined as the program prints them."""
        return "/".join(leaf.states[q] for leaf, q in zip(self.net.leaves, word))

    def start(self, counts: Sequence[int]) -> dict[Word, int]:
        """How many agents begin with each word, the helpers among them."""
        out: dict[Word, int] = {}
        for i, k in enumerate(counts):
            word = tuple(leaf.inputs[i] for leaf in self.net.leaves)
            out[word] = out.get(word, 0) + k
        for j in range(len(self.net.leaves[0].helpers)):
            word = tuple(leaf.helpers[j] for leaf in self.net.leaves)
            out[word] = out.get(word, 0) + 1
        return {word: k for word, k in out.items() if k}
