"""Makes the lower parts of a found tree smaller: looks for the least tree of a branch, by trying all nodes in turn."""
from __future__ import annotations

from dataclasses import dataclass

from ..proof.bundles import Node, Present
from .branch import GaveUp
from ..proof.items import Case
from .lemmas import WORDS, Lemmas, node_of
from .solver import Trouble
from .trees import Grown, Opened, ending, grown

MOST = 9  # nodes of the trees that are looked for
TRIES = 500  # cases that are tried for one tree


class OutOfTries(Exception):
    """Enough was tried."""


@dataclass
class _Option:
    """A node that may stand at a branch, the numbers of its cases that are open, and how many more nodes these may
    have than one each."""

    node: Node
    cases: list[Case]
    still: list[int]
    spare: int


class _Tightener:
    """Walks through a tree, with its branch on the stack of the search that found it."""

    def __init__(self, branch: Lemmas) -> None:
        self.branch = branch
        self.left = TRIES

    def walked(self, node: Grown) -> tuple[Grown, int]:
        """The tree of the branch made smaller, and a number of nodes that none of it goes below, as far as is
        known."""
        if not node.cases:
            return node, 1
        done, least = [], 3
        for items, sub in node.cases:
            self.branch.stack.push(items)
            less, low = self.walked(sub)
            self.branch.stack.frames.pop()
            done.append((items, less))
            least = max(least, low)
        node = node.with_cases(done)
        if any_opened(node):
            return node, least
        while least < min(node.size, MOST + 1) and self.left > 0:
            found = self._tree(least)
            if found is not None:
                return found, least
            least += 1
        return node, least

    def _nodes(self) -> list[Node]:
        """The nodes that may stand at the branch: `present` of each state that is not decided, and sets that exclude a
        point."""
        branch = self.branch
        point = branch.stack.top.pool[-1]
        sets = [node_of(word, states) for word in WORDS for states in branch.small_sets(word, point)]
        return [*map(Present, branch.undecided()), *sets]

    def _is_open(self, items: Case) -> bool:
        """Whether a case does not close at once."""
        self.left -= 1
        if self.left <= 0 or self.branch.limit.is_over():
            self.left = 0
            raise OutOfTries
        if self.branch.side_point(items) is None:
            return False
        stack = self.branch.stack
        return self.branch.residue(stack.beside(len(stack.frames) - 1, items)) is None

    def _tree(self, most: int) -> Grown | None:
        height = len(self.branch.stack.frames)
        try:
            return self._least(most)
        except (OutOfTries, Trouble, GaveUp):
            del self.branch.stack.frames[height:]
            return None

    def _least(self, most: int, passed: frozenset[Node] = frozenset()) -> Grown | None:
        """A tree of at most so many nodes for the branch, if there is one; without nodes that were looked at higher
        up."""
        now = self.branch.closed()
        if now is not None or most < 3:
            return now
        options: list[_Option] = []
        for node in self._nodes():
            option = None if node in passed else self._option(node, most)
            if option is not None:
                options.append(option)
                if not option.still:
                    break
        for option in sorted(options, key=lambda option: len(option.still)):
            found = self._filled(option, passed)
            if found is not None:
                return found
            if len(option.still) == 1:  # it could stand above any other node as well
                passed |= {option.node}
        return None

    def _option(self, node: Node, most: int) -> "_Option | None":
        """The node with the numbers of its open cases, if a tree of so many nodes can begin with it."""
        cases = list(self.branch.cases.of(node))
        option = _Option(node, cases, [], most - 1 - len(cases))
        if option.spare < 0:
            return None
        for i, items in enumerate(cases):
            if self._is_open(items):
                option.still.append(i)
                if 2 * len(option.still) > option.spare:
                    return None
        return option

    def _filled(self, option: "_Option", passed: frozenset[Node]) -> Grown | None:
        """The node with trees for the cases that are open."""
        stack, spare = self.branch.stack, option.spare
        subs: dict[int, Grown] = {}
        for k, i in enumerate(option.still):
            stack.push(option.cases[i])
            sub = self._least(1 + spare - 2 * (len(option.still) - k - 1), passed)
            stack.frames.pop()
            if sub is None:
                return None
            spare -= sub.size - 1
            subs[i] = sub
        return grown(option.node, [(items, subs.get(i) or self._ended(items)) for i, items in enumerate(option.cases)])

    def _ended(self, items: Case) -> Grown:
        """The node that closes a case."""
        stack = self.branch.stack
        stack.push(items)
        found = self.branch.closed()
        stack.frames.pop()
        assert found is not None
        return found


def any_opened(root: Grown) -> bool:
    """Whether a tree has a node `open`."""
    todo = [root]
    while todo:
        node = todo.pop()
        if isinstance(node.kind, Opened):
            return True
        todo += [sub for _, sub in node.cases]
    return False


def tightened(branch: Lemmas, root: Grown) -> Grown:
    """The tree with smaller parts where some are found, within the limit of the search that found the tree."""
    return _Tightener(branch).walked(root)[0]
