"""The proof of the leaf of powers: six layers, and two trees of one shape for all coefficients.

First the sum, which knows nothing of answers. Then a hub of -W turns the callers of the other answer, then a hub of 0
does. Then callers of both answers fall silent. At last answers turn one way with a hub of -W, and the other way with a
hub of 0.
The two hubs are a trap which no move leaves, and which one is there at the end says the sign of the sum.
"""
from __future__ import annotations

from typing import Callable

from ..proof.bundles import Layer, LeafProof, Node
from .branch import HELPED, LEAVES, SOME, VALUE, Branch, Says, Sum, flows, said_of
from .drafts import ones
from .powers import Powers


def powers_layers(it: Powers) -> tuple[Layer, ...]:
    """Weights of the sum by the number of ones, and of callers and of the answers that are turned."""
    draft, caller = it.draft, it.caller
    first = [2 * len(ones(v)) - 1 if v > 0 else 0 for v in draft.worth]
    for debtor in it.debtors:
        first[debtor] = max(2 * it.k, 1)
    first[it.low] = first[it.high] = 1
    falses, trues = [f for f, _ in it.sayers], [t for _, t in it.sayers]
    return draft.layers([first, *draft.told([caller[False]], [caller[True]], caller.values(), falses, trues)])


class Tree:
    """The tree for one value of the predicate; `below` says that the sum is then below the bound."""

    def __init__(self, it: Powers, value: bool) -> None:
        self.it, self.value = it, value
        self.below = value == it.low_output
        self.worth = dict(enumerate(it.draft.worth))
        self.singles = [it.power[i, True] for i in range(it.k)]

    def nodes(self) -> tuple[Node, ...]:
        """The nodes in preorder."""
        it = self.it
        opened, root = Branch.root(it.draft).opened()
        trap, leaves, never, some = root.trap({it.low, it.high})
        right, other = (it.low, it.high) if self.below else (it.high, it.low)
        look, without, beside = some.present(other)
        again, neither, alone = without.present(right)
        no_hub = neither.lin({SOME: 1, **said_of(Says.ABSENT, {it.low: -1, it.high: -1})})
        head = [opened, trap, leaves.lin({LEAVES: 1}), never.lin({HELPED: -1}), look, again, no_hub]
        if self.below:
            return (*head, *self.with_low(alone, self.wrong), *self.against(beside))
        return (*head, *self.wrong(alone), *self.with_low(beside, self.against))

    def with_low(self, branch: Branch, last: Callable[[Branch], list[Node]]) -> list[Node]:
        """With a hub of -W: no two are worth the same, and no token waits, as somebody is worth nothing."""
        nodes: list[Node] = []
        if self.it.tokens or not self.below:
            for state in self.singles:
                twin, branch = branch.twin(state)
                nodes.append(twin)
        if not self.it.tokens:
            return [*nodes, *last(branch)]
        zero, none, here = branch.present(self.it.nothing[True])
        caller, neither, calling = none.present(self.it.caller[True])
        return [*nodes, zero, caller, self.few(neither), *last(calling), *last(here)]

    def few(self, branch: Branch) -> Node:
        """There are more agents than tokens, debtors, hubs and one for each power."""
        it = self.it
        waiting = {*it.tokens, *it.debtors, it.low, it.high}
        powers = [s for (_, b), s in it.power.items() if not b]
        absent = [*it.nothing.values(), *it.caller.values(), it.plus, *powers]
        terms = flows({s: 0 if s in waiting else -1 for s in self.worth})
        terms |= said_of(Says.ABSENT, dict.fromkeys(absent, -1))
        return branch.lin(terms | said_of(Says.SINGLE, dict.fromkeys(self.singles, 1)))

    def wrong(self, branch: Branch) -> list[Node]:
        """Nobody has the wrong output."""
        return [branch.wrong_is_absent(self.value)]

    def against(self, branch: Branch) -> list[Node]:
        """The hub's sign isn't that of the sum."""
        return [branch.lin(self.too_great() if self.below else self.too_small())]

    def too_great(self) -> Sum:
        """A hub of 0 and no debtor: the sum isn't below the bound."""
        owed = {s: v for s, v in self.worth.items() if v < 0}
        return {**flows(self.worth), VALUE: 1, **said_of(Says.ABSENT, owed)}

    def too_small(self) -> Sum:
        """A hub of -W, no plus, and each power at most once: the sum is below the bound."""
        single = set(self.singles)
        terms = flows({s: -v for s, v in self.worth.items()})
        terms |= said_of(Says.ABSENT, {s: -v for s, v in self.worth.items() if v > 0 and s not in single})
        terms |= said_of(Says.SINGLE, {s: self.worth[s] for s in self.singles})
        return {**terms, VALUE: 1, (Says.HERE, self.it.low): 1 << self.it.k}


def powers_proof(it: Powers, text: str) -> LeafProof:
    """Six layers, and a tree for each value."""
    return LeafProof(text, powers_layers(it), Tree(it, True).nodes(), Tree(it, False).nodes())
