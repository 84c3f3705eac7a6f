"""Measures `find` over right protocols that no tree shows without `first`: bench/finder/entries.jsonl.

`python3 -m bench.finder.entries [--seconds N] [WORD..]` measures those whose name has one of the words, in seconds of
processor time, and writes bench/results/entries.txt if there is no word. `--write` puts the table between the marks of
docs/guide/finding.md. `--nets` writes the protocols that are made here; the others were found by changing moves.
"""
from __future__ import annotations

import json
import sys
from typing import Any, Iterator

from hurleyoak.engine.places import TOP
from hurleyoak.proof.bundles import First, Node, Part
from hurleyoak.protocol.nets import compact
from hurleyoak.search.finding import find
from hurleyoak.search.processes import processors
from . import own_protocols as own
from . import protocols as p
from .making import Case
from .stable import loaded_of, result_of

NETS = TOP / "bench" / "finder" / "entries.jsonl"
RESULTS = TOP / "bench" / "results" / "entries.txt"
PAGE = TOP / "docs" / "guide" / "finding.md"
BEGIN = "<!-- entries: written by `/usr/bin/python3 -m bench.finder.entries --write` -->"
END = "<!-- end of the table of entries -->"
HEADER = "name\tstates\tmoves\tresult\ttrue\tfalse\tseconds"
HEAD = """| Protocol | States, moves | Result | Nodes for true | Nodes for false | Seconds |
|---|---|---|---|---|---|
"""
SECONDS = 60.0
MADE = "ours, over Blondin, Esparza and Jaax 2018"


def made() -> Iterator[Case]:
    """Protocols whose accepting agent makes another first, in the place of converting it at once."""
    yield own.giving_back(p.log_flock(2), "4", "0", "2")
    yield own.giving_back(p.log_flock(4), "16", "0", "8")
    yield own.giving_back(p.log_flock(4), "16", "1", "2")
    yield own.giving_back(p.log_flock(5), "32", "0", "16")
    yield own.giving_back(p.log_flock(10), "1024", "0", "512")
    yield own.giving_back(p.tower(4), "4", "0", "3")
    yield own.giving_back(p.tower(5), "5", "2", "4")
    yield own.giving_back(p.tower(20), "20", "0", "19")
    yield own.restless_flock()


def rows() -> Iterator[dict[str, Any]]:
    """The protocols."""
    for line in NETS.read_text(encoding="utf-8").splitlines():
        yield json.loads(line)


def nets() -> None:
    """Writes the protocols that are made here, and keeps the others."""
    kept = [row for row in rows() if row["source"] != MADE] if NETS.exists() else []
    own_rows = [{"name": c.name, "source": MADE, "pred": c.predicate, "net": c.net.value()} for c in made()]
    NETS.write_text("".join(compact(row) + "\n" for row in [*own_rows, *kept]), encoding="utf-8")


def nodes_told(nodes: tuple[Node, ...]) -> str:
    """How many nodes a tree has, and how many of them are `first`."""
    count = sum(isinstance(node, First) for node in nodes)
    return f"{len(nodes)}" + (f", {count} `first`" if count else "")


def _trees(part: Part | None) -> tuple[str, str]:
    return (nodes_told(part.tree(True)), nodes_told(part.tree(False))) if part is not None else ("-", "-")


def measured(row: dict[str, Any], seconds: float) -> str:
    """One line, by the program where it is a verdict."""
    loaded = loaded_of(row)
    leaf = loaded.net.leaves[0]
    found = find(loaded, seconds, 0.3, processors())
    true, false = _trees(found.bundle.proof[0] if found.bundle is not None else None)
    took = round(sum(result.seconds for result in found.done.values()), 1)
    return "\t".join(map(str, (row["name"], len(leaf.states), len(leaf.active), result_of(found), true, false, took)))


def table() -> str:
    """The table of the page."""
    out = HEAD
    for text in RESULTS.read_text(encoding="utf-8").splitlines()[1:]:
        name, states, moves, *rest = text.split("\t")
        out += f"| {' | '.join([name, f'{states}, {moves}', *rest])} |\n"
    return out


def write() -> None:
    """Puts the table into its page."""
    before, _, rest = PAGE.read_text(encoding="utf-8").partition(BEGIN + "\n")
    PAGE.write_text(f"{before}{BEGIN}\n\n{table()}{END}{rest.partition(END)[2]}", encoding="utf-8")


def measure(arguments: list[str], seconds: float) -> None:
    """Measures those of these words, or all."""
    lines = [HEADER]
    print(HEADER, flush=True)
    for row in rows():
        if not arguments or any(word in row["name"] for word in arguments):
            lines.append(measured(row, seconds))
            print(lines[-1], flush=True)
    if not arguments:
        RESULTS.write_text("\n".join(lines) + "\n", encoding="utf-8")


def main(arguments: list[str]) -> None:
    """Measures, or writes the table or the nets."""
    seconds = SECONDS
    if "--seconds" in arguments:
        at = arguments.index("--seconds")
        seconds = float(arguments[at + 1])
        del arguments[at : at + 2]
    if "--write" in arguments:
        write()
    elif "--nets" in arguments:
        nets()
    else:
        measure(arguments, seconds)


if __name__ == "__main__":
    main(sys.argv[1:])
