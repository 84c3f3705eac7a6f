"""What each heuristic of the search gains: `python3 -m bench.finder.heuristics [--large] [--small] [WORD..]`, a table
row for each whose name has one of the words, with it left out; with `--large` for one net of 93 states and 2,357
moves; with `--small` those that make a found tree smaller."""
from __future__ import annotations

import sys
from contextlib import ExitStack, contextmanager
from typing import Any, Iterator

from hurleyoak.text.loaded import LoadedNet
from hurleyoak.search import branch, frames, layers, lemmas, solver, treefinder
from hurleyoak.search.finding import find
from hurleyoak.search.search import Way
from . import own_protocols as own
from . import protocols as p
from .families import compiled
from .making import Case, product
from .worked import worked

SECONDS = 300.0
SMALL = 4.0  # as `find` has it where nothing is said

Patch = tuple[Any, str, Any]


def sample() -> list[Case]:
    """Nets of all kinds of proofs."""
    return [
        p.flock(20),
        p.tower(12),
        p.threshold((1, -1), 2),
        p.remainder(8, 1),
        p.average(9),
        own.interval(2, 5),
        own.helper_rest(5),
        own.twice(),
        compiled("", "x - y < 8"),
        compiled("", "x + 2*y = 1 mod 30"),
        product("", "", p.flock(3), p.majority(False), "||"),
        product("", "", p.flock(3), own.mod_three(), "&&"),
    ]


def _as_low(self: Any, word: str, states: Any, main: int = 2) -> None:
    node = lemmas.node_of(word, states)
    self.add_lemma(len(self.stack.frames) - 1, frames.Lemma(node, list(self.cases.of(node)), main))


def _never(self: Any, *_: Any) -> bool:
    return False


# what is left out, in words; what it gains is seen from what is lost
PATCHES: list[tuple[str, list[Patch]]] = [
    ("(nothing)", []),
    ("lemmas: a siphon or trap of all known points' moves, without a branch", [(lemmas.Lemmas, "easy_lemma", _never)]),
    ("lemmas as high in the tree as they close", [(lemmas.Lemmas, "promote", _as_low)]),
    ("smaller traps", [(lemmas.Lemmas, "_smaller_trap", lambda self, states, *_: states)]),
    ("points that take many untaken moves at once", [(lemmas.Lemmas, "_untaken", lambda self, moves: None)]),
    ("moves of other branches' points where lemmas failed before", [(lemmas, "FAILURES", 1 << 30)]),
    (
        "the cases of `present` that are known to be closed higher up",
        [(branch.Branch, "known_shut", lambda self: set())],
    ),
    ("programs made smaller before they are solved", [(solver, "PRESOLVED", 0)]),
    ("known points kept for a branch", [(frames, "POOL", 1), (branch, "POOL", 1)]),
    ("look-ahead at both cases of `present`", [(treefinder, "WAYS", (Way(1),))]),
    ("layers of a sample of closures first", [(layers, "SAMPLE", 1 << 30)]),
]

SMALLER: list[tuple[str, list[Patch]]] = [
    ("(nothing)", []),
    ("a plain search too", [(treefinder, "WAYS", treefinder.WAYS[:1])]),
    ("nodes dropped that the tree can do without", [(treefinder, "shrunk", lambda made, root, limit: root)]),
    ("the least trees of lower parts", [(treefinder, "tightened", lambda made, root: root)]),
]


@contextmanager
def patched(patches: list[Patch]) -> Iterator[None]:
    """Attributes replaced for a while."""
    with ExitStack() as stack:
        for owner, name, value in patches:
            stack.callback(setattr, owner, name, getattr(owner, name))
            setattr(owner, name, value)
        yield


def measured(cases: list[Case], small: float) -> tuple[float, int, int]:
    """Seconds, nodes of those found, and how many weren't."""
    start, nodes, lost = worked(), 0, 0
    for case in cases:
        found = find(
            LoadedNet(case.name, case.net, case.predicate, list(case.leaves or [case.predicate])),
            SECONDS,
            small,
            jobs=1,
        )
        if found.bundle is None:
            lost += 1
        else:
            nodes += sum(len(part.tree(True)) + len(part.tree(False)) for part in found.bundle.proof)
    return worked() - start, nodes, lost


def main(arguments: list[str]) -> None:
    """The table."""
    cases = [compiled("", "x - y < 14")] if "--large" in arguments else sample()
    words = [word for word in arguments if not word.startswith("--")]
    is_small = "--small" in arguments
    print(f"| Left out | Seconds for {len(cases)} nets | Nodes | Not found in {SECONDS:g} s |")
    print("|---|---|---|---|")
    for told, patches in SMALLER if is_small else PATCHES:
        if words and not any(word in told for word in words):
            continue
        with patched(patches):
            seconds, nodes, lost = measured(cases, SMALL if is_small else 0.0)
        print(f"| {told} | {seconds:.1f} | {nodes} | {lost} |", flush=True)


if __name__ == "__main__":
    main(sys.argv[1:])
