"""Which comparisons `compile --flocks` built as others are, since they say no "at least 2^k"."""
from __future__ import annotations

from typing import Any

from ...text.jsontext import read_json
from ...protocol.predicatereader import read_predicate
from ...protocol.predicates import Less, Predicate, PredicateFault


def is_flock(tree: Predicate) -> bool:
    """Whether it says that a sum of variables is at least 2^k, for a k from 1 on."""
    if not isinstance(tree, Less) or not set(tree.coefficients) <= {0, -1} or not any(tree.coefficients):
        return False
    least = 1 - tree.bound
    return least >= 2 and least & (least - 1) == 0


def flocks_told(printed: bytes) -> list[str]:
    """A sentence for each leaf that is no flock's; none where what was printed isn't understood."""
    try:
        value: Any = read_json(printed.decode())
        names = value["net"]["vars"]
        leaves = [(part["pred"], len(leaf["states"])) for part, leaf in zip(value["proof"], value["net"]["leaves"])]
        return [
            f'comparison {i}, `{text}`, says no "at least 2^k" of a sum of variables: it has a plain leaf of'
            f" {states} states"
            for i, (text, states) in enumerate(leaves)
            if not is_flock(read_predicate(text, names))
        ]
    except (ValueError, KeyError, TypeError, PredicateFault, RecursionError):
        return []
