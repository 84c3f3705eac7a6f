"""The tree for what the author wrote of it: the search goes on where there are holes."""
from __future__ import annotations

from typing import Iterator, Sequence

from ..proof.bundles import First, Hole, Linear, Open, Residue, Twin
from ..proof.facts import HOLDS, open_cases
from ..proof.items import Case, Item, Row, fact_of, row_of
from ..text.treereader import DraftNode
from .branch import GaveUp
from .frames import Lemma
from .search import Search
from .trees import Entered, Grown, Opened, RestSum, Sum, ending, grown


class Prover(Search):
    """Finds the tree for one value of one leaf's predicate."""

    def proved(self, nodes: Sequence[DraftNode]) -> Grown:
        """The tree with these nodes, and with what is found in the place of holes; WrongEnd, GaveUp or Trouble."""
        return self._given(iter(nodes), list(self.base))

    def _given(self, nodes: Iterator[DraftNode], trail: list[Item]) -> Grown:
        node = next(nodes, None)
        if node is None:
            raise GaveUp("the nodes end before all cases have one")
        if isinstance(node, Hole):
            return self._filled(node)
        numbers = (
            [(item, at) for item in trail for at in range(len(item))]
            if isinstance(node, (Linear, Residue, Open))
            else []
        )
        if isinstance(node, (Linear, Residue)):
            terms = [(numbers[f], k) for f, k in node.terms if f < len(numbers)]
            return Grown(Sum(terms) if isinstance(node, Linear) else RestSum(node.modulus, terms))
        if isinstance(node, Open):
            item = numbers[node.fact][0] if node.fact < len(numbers) else None
            if not isinstance(item, Row) or item.kind != HOLDS:
                raise GaveUp("an `open` names no fact that says what value a predicate has")
            cases: list[Case] = [[row_of(fact) for fact in case] for case in open_cases(fact_of(item, 0))]
            self._opened.append(item)
            done = self._given_cases(nodes, trail, cases)
            self._opened.pop()
            return grown(Opened(item), done, keep=True)
        entered = self._given_entries(nodes, node, trail) if isinstance(node, First) else None
        return grown(node, self._given_cases(nodes, trail, list(self.cases.of(node))), keep=True, entered=entered)

    def _given_entries(self, nodes: Iterator[DraftNode], node: First, trail: list[Item]) -> Entered:
        entered = self.entered(node.states)
        below = self.below(entered, trail, self.limit)
        for items in self.entry_cases(node.states):
            entered.trees += below._given_cases(nodes, list(below.base), [items])
        return entered

    def _given_cases(
        self, nodes: Iterator[DraftNode], trail: list[Item], cases: list[Case]
    ) -> list[tuple[Case, Grown]]:
        done = []
        for items in cases:
            self.stack.push(items)
            done.append((items, self._given(nodes, [*trail, *items])))
            self.stack.frames.pop()
        return done

    def _filled(self, hole: Hole) -> Grown:
        """What is found for a hole: multipliers, or a subtree."""
        if hole.kind == "lin":
            return self.summed(self.stack.frames, [])
        items = [item for frame in self.stack.frames for item in frame.items]
        if hole.kind == "residue":
            found = self.residues.closing(items, hole.modulus)
            if found is None:
                raise GaveUp(f"no multipliers close the `residue {hole.modulus} ?`")
            return ending(found)
        frame = self.stack.push([])
        self.floor = len(self.stack.frames) - 1
        for q in range(self.cases.states):
            if self.cases.near[q, q]:
                self.add_lemma(self.floor, Lemma(Twin(q), list(self.cases.of(Twin(q))), 0))
        pending = [item for item in items if isinstance(item, Row) and item.kind == HOLDS and item not in self._opened]
        return self._popped(frame, self._open(pending))
