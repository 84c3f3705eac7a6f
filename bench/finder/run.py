"""Measures `find` in seconds of processor time: `python3 -m bench.finder.run [--large] [--seconds N] [--small N]
[WORD..]`, a line for each net."""
from __future__ import annotations

import sys
from typing import Iterable

from hurleyoak.engine import program
from hurleyoak.proof.checking import bound
from hurleyoak.text.loaded import LoadedNet
from hurleyoak.search.finding import find
from .families import large_nets, small_nets
from .making import Case
from .worked import worked

HEADER = "family\tname\tstates\tmoves\tseconds\tnodes\tresult"


def measured(case: Case, seconds: float, small: float) -> str:
    """One line: what was found, and what the program says of it."""
    loaded = LoadedNet(case.name, case.net, case.predicate, list(case.leaves or [case.predicate]))
    start = worked()
    found = find(loaded, seconds, small, jobs=1)
    took = worked() - start
    states = sum(len(leaf.states) for leaf in case.net.leaves)
    moves = sum(len(leaf.moves) for leaf in case.net.leaves)
    if found.bundle is not None:
        answer = program.check(found.bundle.line())
        nodes = " ".join(f"{len(part.tree(True))},{len(part.tree(False))}" for part in found.bundle.proof)
        assert answer.first_line != f"certified {bound(found.bundle)}" or answer.status == program.DONE
        result = answer.first_line
    else:
        nodes = "-"
        result = (
            "counterexample"
            if found.flaw
            else f"{found.failures[0].kind}: {found.failures[0].reason} {found.failures[0].told}"
        )
    return f"{case.family}\t{case.name}\t{states}\t{moves}\t{took:.1f}\t{nodes}\t{result}"


def main(arguments: list[str]) -> None:
    """Measures the nets whose family or name has one of the words, all of them without words."""
    values = {"--seconds": 150.0, "--small": 0.0}
    words = []
    rest = iter(arguments)
    for word in rest:
        if word in values:
            values[word] = float(next(rest))
        elif word != "--large":
            words.append(word)
    cases: Iterable[Case] = large_nets() if "--large" in arguments else small_nets()
    print(HEADER, flush=True)
    for case in cases:
        if not words or any(word in f"{case.family} {case.name}" for word in words):
            print(measured(case, values["--seconds"], values["--small"]), flush=True)


if __name__ == "__main__":
    main(sys.argv[1:])
