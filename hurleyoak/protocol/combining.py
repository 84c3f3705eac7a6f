"""The whole predicate of a net from its leaves' predicates, and back."""
from __future__ import annotations

from typing import Sequence

from .nets import Net
from .predicates import And, Less, Not, Or, Predicate


def combined_predicate(net: Net, parts: Sequence[Predicate]) -> Predicate:
    """The tree of the net's combination, with the leaves' predicates in the place of their numbers."""
    stack: list[Predicate] = []
    for item in net.combine:
        if isinstance(item, int):
            stack.append(parts[item])
        elif item == "not":
            stack.append(Not(stack.pop()))
        else:
            right, left = stack.pop(), stack.pop()
            stack.append(And(left, right) if item == "and" else Or(left, right))
    return stack[0]


def leaf_predicates(net: Net, whole_tree: Predicate) -> list[Predicate] | None:
    """Each leaf's predicate where the combination and the tree have the same shape, else None.

    A leaf that the combination doesn't name gets one that is always true.
    """
    leaves = [Less((i,), 0) for i in range(len(net.leaves))]
    found: dict[int, Predicate] = {}
    todo: list[tuple[Predicate, Predicate]] = [(combined_predicate(net, leaves), whole_tree)]
    while todo:
        shape, tree = todo.pop()
        if isinstance(shape, Less):
            if found.setdefault(shape.coefficients[0], tree) != tree:
                return None
        elif isinstance(shape, Not) and isinstance(tree, Not):
            todo.append((shape.part, tree.part))
        elif isinstance(shape, And) and isinstance(tree, And):
            todo += [(shape.left, tree.left), (shape.right, tree.right)]
        elif isinstance(shape, Or) and isinstance(tree, Or):
            todo += [(shape.left, tree.left), (shape.right, tree.right)]
        else:
            return None
    always = Less(tuple(0 for _ in net.names), 1)
    return [found.get(i, always) for i in range(len(net.leaves))]
