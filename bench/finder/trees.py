"""Compares the sizes of the trees that `find` finds with those of an earlier finder: `python3 -m bench.finder.trees
[--small N] [--each] [WORD..]`, a table by families, of the nets whose family or name has one of the words; with
`--each` a line for each net whose sizes differ. The status is 1 where a tree is larger.

`trial_trees.txt`, beside this file, has the sizes of the earlier finder: for true and for false, for each leaf."""
from __future__ import annotations

import sys
import time
from dataclasses import dataclass
from pathlib import Path
from typing import Iterable

from hurleyoak.text.loaded import LoadedNet
from hurleyoak.search.processes import deep
from hurleyoak.search.treefinder import find_tree
from hurleyoak.search.limits import clock
from .families import small_nets
from .making import Case

OTHERS = Path(__file__).with_name("trial_trees.txt")
SECONDS = 150.0
SMALL = 4.0  # as `find` has it where nothing is said

Sizes = list[int]  # of the trees for true and for false, leaf by leaf


def sizes_of(case: Case, small: float) -> Sizes:
    """How many nodes the trees of a net have."""
    loaded = LoadedNet(case.name, case.net, case.predicate, list(case.leaves or [case.predicate]))
    pairs = zip(case.net.leaves, loaded.part_trees())
    return [
        len(find_tree(leaf, tree, value, None, clock() + SECONDS, small))
        for leaf, tree in pairs
        for value in (True, False)
    ]


def read_sizes(path: Path) -> dict[tuple[str, str], Sizes]:
    """The sizes in a file, by family and name; lines that begin with `#` say what it is."""
    out = {}
    for line in path.read_text().splitlines():
        if not line.startswith("#"):
            family, name, sizes = line.split("\t")
            out[family, name] = [int(size) for size in sizes.replace(",", " ").split()]
    return out


@dataclass
class Tally:
    """Nets by how their trees compare, and nodes in sum."""

    smaller: int = 0
    equal: int = 0
    larger: int = 0
    nodes: int = 0
    others: int = 0

    def add(self, sizes: Sizes, others: Sizes) -> None:
        """One net more: larger where one of its trees is, else smaller where one is."""
        if any(a > b for a, b in zip(sizes, others)):
            self.larger += 1
        elif sizes == others:
            self.equal += 1
        else:
            self.smaller += 1
        self.nodes += sum(sizes)
        self.others += sum(others)

    def row(self, family: str) -> str:
        """A row of the table."""
        counts = (
            self.smaller + self.equal + self.larger,
            self.smaller,
            self.equal,
            self.larger,
            self.nodes,
            self.others,
        )
        return f"| {family} | {' | '.join(map(str, counts))} |"


def compared(cases: Iterable[Case], small: float, each: bool) -> dict[str, Tally]:
    """A tally for each family, and one for all, told under `all`."""
    others = read_sizes(OTHERS)
    tallies: dict[str, Tally] = {}
    whole = Tally()
    for case in cases:
        sizes, theirs = sizes_of(case, small), others[case.family, case.name]
        for tally in (tallies.setdefault(case.family, Tally()), whole):
            tally.add(sizes, theirs)
        if each and sizes != theirs:
            print(f"{case.family}: {case.name}: {sizes}, the earlier finder {theirs}", flush=True)
    return {**tallies, "all": whole}


def main(arguments: list[str]) -> int:
    """Prints the table."""
    words, small = [], SMALL
    rest = iter(arguments)
    for word in rest:
        if word == "--small":
            small = float(next(rest))
        elif word != "--each":
            words.append(word)
    cases = (case for case in small_nets() if not words or any(word in f"{case.family} {case.name}" for word in words))
    start = time.process_time()
    tallies: dict[str, Tally] = deep(lambda: compared(cases, small, "--each" in arguments))
    print("| Family | Nets | Smaller | Equal | Larger | Nodes | Nodes, the earlier finder |")
    print("|---|---|---|---|---|---|---|")
    for family, tally in tallies.items():
        print(tally.row(family))
    print(f"\n{time.process_time() - start:.0f} seconds of a processor", file=sys.stderr)
    return 1 if tallies["all"].larger else 0


if __name__ == "__main__":
    sys.exit(main(sys.argv[1:]))
