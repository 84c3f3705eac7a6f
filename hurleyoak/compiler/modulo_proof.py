"""The proof of the leaf of a congruence: seven layers; a short tree for false, and one of O(m) nodes for true."""
from __future__ import annotations

from typing import Callable

from ..proof.bundles import Layer, LeafProof, Node
from .branch import HELPED, HUB, LEAVES, SOME, VALUE, Branch, Says, Sum, flows, in_turn, said_of
from .modulo import Modulo

LAST: tuple[Says, int] = (Says.SOME, 1)  # somebody is in the second trap


def modulo_layers(it: Modulo) -> tuple[Layer, ...]:
    """The sum; what digits tell the hub; callers turned to true; to false; both kinds; answers turned to true; to
    false."""
    draft, digits, caller = it.draft, len(it.radices), it.caller
    yes, no, fresh = it.hubs[True], it.hubs[False], set(it.fresh)
    states = range(len(draft.states))
    first = [draft.worth[s] + (digits - it.token[s] if s in it.token else 0) for s in states]
    second = [3 if s == yes else 2 if s == no or s in fresh else 0 for s in states]
    falses, trues = [f for f, _ in it.sayers], [t for _, t in it.sayers]
    groups = draft.told([caller[False]], [caller[True]], caller.values(), falses, trues)
    return draft.layers([first, second, *groups])


class Tree:
    """The tree for one value of the congruence."""

    def __init__(self, it: Modulo, value: bool) -> None:
        self.it, self.value = it, value
        self.m, self.width = it.atom.modulus, it.places[-1]
        self.worth = it.draft.worth
        self.goal_sum = sum(d * place for d, place in zip(it.goal, it.places))

    def nodes(self) -> tuple[Node, ...]:
        """The nodes in preorder."""
        opened, root = Branch.root(self.it.draft).opened()
        return (opened, *in_turn(root, self.it.token, self.digit_is_there, self.rest))

    def digit_is_there(self, token: int, here: Branch) -> list[Node]:
        """A token doesn't wait: its digit's helper is there."""
        own = {s: -1 for s, i in self.it.level.items() if i == self.it.token[token]}
        return [here.lin({**flows(own), **said_of(Says.ABSENT, own)})]

    def rest(self, branch: Branch) -> list[Node]:
        """All tokens are absent."""
        if self.value:
            return self.shown(branch)
        return self.with_hub(branch, self.false_hub)

    def right_part(self, state: int) -> int:
        """What the right digit at this state's place is worth."""
        place = self.it.level[state]
        return self.it.goal[place] * self.it.places[place]

    def sum_now(self) -> Sum:
        """The inputs' sum is the sum of the digits, but for multiples of m."""
        terms = flows({s: v % self.m for s, v in enumerate(self.worth)})
        return terms | said_of(Says.ABSENT, {s: self.worth[s] % self.m for s in self.it.token})

    def with_hub(self, branch: Branch, then: Callable[[Branch], list[Node]]) -> list[Node]:
        """There is a hub."""
        trap, leaves, never, some = branch.trap(self.it.hubs.values())
        return [trap, leaves.lin({LEAVES: 1}), never.lin({HELPED: -1}), *then(some.calling(SOME, HUB))]

    # the tree for false

    def false_hub(self, branch: Branch) -> list[Node]:
        """A hub of true has only right digits beside it; one of false says what is right."""
        yes, no = self.it.hubs[True], self.it.hubs[False]
        no_hub = {HUB: 1, **said_of(Says.ABSENT, {yes: -1, no: -1})}

        def false_is_there(rest: Branch) -> list[Node]:
            return in_turn(
                rest, [no], lambda _, here: [here.wrong_is_absent(False)], lambda neither: [neither.lin(no_hub)]
            )

        return in_turn(branch, [yes], self.sum_is_right, false_is_there)

    def sum_is_right(self, _: int, here: Branch) -> list[Node]:
        """Somebody says true, so no digit is wrong, and the sum is m - 1."""
        terms = self.sum_now()
        for state in self.it.level:
            terms[Says.FLOW, state] = (self.worth[state] - self.right_part(state)) % self.m
        for state in self.it.wrong:
            terms[Says.ABSENT, state] = (self.worth[state] - self.right_part(state)) % self.m
        return [here.residue(self.m, terms)]

    # the tree for true

    def shown(self, branch: Branch) -> list[Node]:
        """The digits' sum is m - 1: any other number below W is another one modulo m."""
        split, above, equal, below = self.parted(branch, self.m - 1)
        right = in_turn(equal, self.it.wrong, self.wrong_digit, lambda b: self.with_hub(b, self.all_right))
        return [split, *self.not_above(above), *right, *self.not_below(below)]

    def parted(self, branch: Branch, number: int) -> tuple[Node, Branch, Branch, Branch]:
        """Whether the digits' sum is above, at or below a number."""
        variables = len(self.it.draft.inputs)
        row = [(variables + s, self.worth[s]) for s in sorted(self.it.level) if self.worth[s]]
        return branch.split(row, number)

    def other_sum(self, branch: Branch, number: int) -> Node:
        """The digits' sum is a number that isn't m - 1 modulo m."""
        return branch.residue(self.m, {**self.sum_now(), (Says.EQUAL, number): 1, VALUE: -1})

    def not_above(self, branch: Branch) -> list[Node]:
        """The digits' sum is above m - 1."""
        nodes: list[Node] = []
        ends: list[Node] = []
        for number in range(self.m, self.width):
            split, above, equal, below = self.parted(branch, number)
            nodes.append(split)
            between = below.lin({(Says.ABOVE, number - 1): 1, (Says.BELOW, number): 1})
            ends = [self.other_sum(equal, number), between, *ends]
            branch = above
        most = {s: (self.it.radices[i] - 1) * self.it.places[i] for s, i in self.it.level.items()}
        return [*nodes, branch.lin({**flows(most), (Says.ABOVE, self.width - 1): 1}), *ends]

    def not_below(self, branch: Branch) -> list[Node]:
        """The digits' sum is below m - 1."""
        nodes: list[Node] = []
        for number in range(self.m - 2, -1, -1):
            split, above, equal, below = self.parted(branch, number)
            between = above.lin({(Says.BELOW, number + 1): 1, (Says.ABOVE, number): 1})
            nodes += [split, between, self.other_sum(equal, number)]
            branch = below
        return [*nodes, branch.lin({(Says.BELOW, 0): 1})]

    def wrong_digit(self, digit: int, here: Branch) -> list[Node]:
        """The sum is m - 1, but this digit is none of m - 1, though all higher ones are."""
        place = self.it.level[digit]
        d = self.worth[digit] // self.it.places[place]
        return [here.lin(self.too_much(digit) if d > self.it.goal[place] else self.too_little(digit))]

    def too_much(self, digit: int) -> Sum:
        """The sum is at least what the places from this one on give."""
        higher = [s for s, i in self.it.level.items() if i > self.it.level[digit]]
        terms = flows({s: -self.right_part(s) for s in higher})
        wrong = {s: self.worth[s] - self.right_part(s) for s in higher if s in self.it.wrong}
        return {
            **terms,
            **said_of(Says.ABSENT, wrong),
            (Says.EQUAL, self.goal_sum): -1,
            (Says.HERE, digit): self.worth[digit],
        }

    def too_little(self, digit: int) -> Sum:
        """The sum is at most what the places from this one on give, with the greatest digits at all others."""
        it, place = self.it, self.it.level[digit]
        most = {s: (it.radices[i] - 1) * it.places[i] for s, i in it.level.items() if i <= place}
        higher = {s: self.right_part(s) for s, i in it.level.items() if i > place}
        wrong = {s: v - self.worth[s] for s, v in higher.items() if s in it.wrong}
        lacks = (it.radices[place] - 1) * it.places[place] - self.worth[digit]
        terms = {**flows(most), **flows(higher), **said_of(Says.ABSENT, wrong)}
        return {**terms, (Says.EQUAL, self.goal_sum): 1, (Says.HERE, digit): lacks}

    def all_right(self, branch: Branch) -> list[Node]:
        """No digit is wrong, nobody is fresh, and so the hub says true."""
        it = self.it
        yes, no = it.hubs[True], it.hubs[False]
        told = [*it.wrong, *it.fresh, yes]
        trap, leaves, never, some = branch.trap(told)
        no_hub = {HUB: 1, **said_of(Says.ABSENT, {yes: -1, no: -1})}
        nobody = {LAST: 1, **said_of(Says.ABSENT, dict.fromkeys(told, -1))}

        def true_is_there(rest: Branch) -> list[Node]:
            return in_turn(rest, [yes], lambda _, here: [here.wrong_is_absent(True)], lambda none: [none.lin(nobody)])

        chain = in_turn(some.last_as(LAST), it.fresh, lambda _, here: [here.lin(no_hub)], true_is_there)
        return [trap, leaves.lin({LEAVES: 1}), never.lin({HELPED: -1}), *chain]


def modulo_proof(it: Modulo, text: str) -> LeafProof:
    """Seven layers, and a tree for each value."""
    return LeafProof(text, modulo_layers(it), Tree(it, True).nodes(), Tree(it, False).nodes())
