"""Measures `find` over published families, wrong nets and mutants, in seconds of the processor, and writes the tables
of it.

`python3 -m bench.finder.benchmark PART.. [--seconds N]` measures the nets of parts that have no line in
bench/results/find.txt yet: `published`, `late`, `mutants`. `--write` puts the tables between the marks of
docs/guide/finding.md. Limits count the work of processes; the same seconds by the wall end a search, so an idle
machine is needed.
"""
from __future__ import annotations

import sys
from dataclasses import dataclass
from typing import Callable, Iterator

from hurleyoak.engine import program
from hurleyoak.engine.places import TOP
from hurleyoak.protocol.predicates import value_at
from hurleyoak.search.finding import find
from hurleyoak.search.playing import play
from hurleyoak.text.loaded import LoadedNet
from .late import late_nets
from .making import Case
from .mutants import mutants
from .published import published, quoted
from .worked import worked

RESULTS = TOP / "bench" / "results" / "find.txt"
PAGE = TOP / "docs" / "guide" / "finding.md"
HEADER = "part\tfamily\tname\tstates\tmoves\tleast\tseconds\tresult\tnodes\tquoted"
BEGIN = "<!-- find: written by `/usr/bin/python3 -m bench.finder.benchmark --write` -->"
END = "<!-- end of find's tables -->"
SECONDS = 240.0
MUTANTS = 100
BANDS = (7, 16, 64, 256, 1024, 4096)  # agents of the least wrong crowd, up to each


@dataclass(frozen=True)
class Line:
    """What came of one net."""

    part: str
    family: str
    name: str
    states: int
    moves: int
    least: int
    seconds: float
    result: str
    nodes: str
    quoted: str

    @property
    def key(self) -> tuple[str, str, str]:
        """What tells it from others."""
        return self.part, self.family, self.name

    def text(self) -> str:
        """As it stands in the file."""
        return "\t".join(map(str, vars(self).values()))


def _line(text: str) -> Line:
    part, family, name, states, moves, least, seconds, *rest = text.split("\t")
    return Line(part, family, name, int(states), int(moves), int(least), float(seconds), *rest)


def known() -> list[Line]:
    """The lines that are there."""
    return [_line(text) for text in RESULTS.read_text().splitlines()[1:]] if RESULTS.exists() else []


def _result(case: Case, loaded: LoadedNet, seconds: float) -> tuple[str, str]:
    """What is said, by the program where it is a verdict, and the nodes of trees."""
    found = find(loaded, seconds, 0.0, jobs=1)
    if found.bundle is not None:
        nodes = " ".join(f"{len(part.tree(True))},{len(part.tree(False))}" for part in found.bundle.proof)
        return program.check(found.bundle.line()).first_line, nodes
    if found.flaw is None:
        return f"neither: {found.failures[0].reason}", ""
    if not found.flaw.by_meetings:
        return "a hidden move", ""
    played = play(case.net, found.flaw, value_at(loaded.whole_tree(), found.flaw.counts))
    agents = sum(found.flaw.counts) + len(case.net.leaves[0].helpers)
    return (f"played, {agents} agents" if played.is_as_told else "NOT AS PLAYED"), ""


def measured(part: str, case: Case, least: int, seconds: float) -> Line:
    """One net."""
    loaded = LoadedNet(case.name, case.net, case.predicate, list(case.leaves or [case.predicate]))
    start = worked()
    result, nodes = _result(case, loaded, seconds)
    took = round(worked() - start, 1)
    states, moves = (sum(map(len, parts)) for parts in zip(*((leaf.states, leaf.moves) for leaf in case.net.leaves)))
    return Line(part, case.family, case.name, states, moves, least, took, result, nodes, quoted(case))


PARTS: dict[str, Callable[[], Iterator[tuple[int, Case]]]] = {
    "published": lambda: ((0, case) for case in published()),
    "late": late_nets,
    "mutants": lambda: ((0, case) for case in mutants(MUTANTS)),
}


def measure(parts: list[str], seconds: float) -> None:
    """A line for each net that has none."""
    have = {line.key for line in known()}
    if not RESULTS.exists():
        RESULTS.write_text(HEADER + "\n")
    for part in parts:
        for least, case in PARTS[part]():
            if (part, case.family, case.name) in have:
                continue
            line = measured(part, case, least, seconds)
            with RESULTS.open("a") as file:
                file.write(line.text() + "\n")
            print(line.text(), flush=True)


def _published(lines: list[Line]) -> Iterator[str]:
    yield "| Net | States | Moves | Processor seconds | Nodes | Result | Published |"
    yield "|---|---|---|---|---|---|---|"
    for line in lines:
        nodes = line.nodes.replace(",", ", ")
        yield (
            f"| {line.family}: {line.name} | {line.states} | {line.moves} | {line.seconds:g} | {nodes} |"
            f" {line.result} | {line.quoted} |"
        )


def _late(lines: list[Line]) -> Iterator[str]:
    yield "| Least wrong crowd | Nets | Played | Of the least crowd | Processor seconds, most |"
    yield "|---|---|---|---|---|"
    for low, high in zip((0, *BANDS), BANDS):
        some = [line for line in lines if low < line.least <= high]
        if some:
            good = [line for line in some if line.result.startswith("played, ")]
            least = sum(line.result == f"played, {line.least} agents" for line in good)
            yield (
                f"| {low + 1:,} to {high:,} agents | {len(some)} | {len(good)} | {least} |"
                f" {max(line.seconds for line in some):g} |"
            )


def _mutants(lines: list[Line]) -> Iterator[str]:
    counts: dict[str, list[float]] = {}
    for line in lines:
        counts.setdefault(line.result.split(",")[0].split(" ")[0].rstrip(":"), []).append(line.seconds)
    yield "| Changed nets | Count | Processor seconds, most |"
    yield "|---|---|---|"
    for result, seconds in sorted(counts.items()):
        yield f"| {result} | {len(seconds)} | {max(seconds):g} |"


def tables() -> list[str]:
    """The tables of all lines that are there."""
    lines = known()
    out: list[str] = []
    for part, made in (("published", _published), ("late", _late), ("mutants", _mutants)):
        some = [line for line in lines if line.part == part]
        out += [*made(some), ""] if some else []
    return out


def write() -> None:
    """Puts the tables into the page."""
    text = PAGE.read_text()
    first, last = text.index(BEGIN) + len(BEGIN), text.index(END)
    PAGE.write_text("\n".join([text[:first], "", *tables()]) + text[last:])


def main(arguments: list[str]) -> None:
    """Measures parts, or writes the tables."""
    words = [word for word in arguments if word in PARTS]
    seconds = float(arguments[arguments.index("--seconds") + 1]) if "--seconds" in arguments else SECONDS
    measure(words, seconds)
    if "--write" in arguments:
        write()


if __name__ == "__main__":
    main(sys.argv[1:])
