"""Measures `find` over 39 protocols that are right without falling silent, or have no layers: bench/finder/stable.jsonl.

`python3 -m bench.finder.stable [--seconds N] [WORD..]` measures those whose name has one of the words, in seconds of
processor time, and writes bench/results/stable.txt if there is no word. `--write` puts the table between the marks of
docs/guide/finding.md.
"""
from __future__ import annotations

import json
import sys
from dataclasses import astuple, dataclass
from typing import Any, Iterator

from hurleyoak.engine import program
from hurleyoak.engine.places import TOP
from hurleyoak.proof.bundles import Goal, LeafGoals
from hurleyoak.protocol.nets import net_of
from hurleyoak.search.finding import Outcome, find
from hurleyoak.search.processes import processors
from hurleyoak.text.loaded import LoadedNet

NETS = TOP / "bench" / "finder" / "stable.jsonl"
RESULTS = TOP / "bench" / "results" / "stable.txt"
PAGE = TOP / "docs" / "guide" / "finding.md"
BEGIN = "<!-- goals: written by `/usr/bin/python3 -m bench.finder.stable --write` -->"
END = "<!-- end of the table of goals -->"
HEADER = "name\tsource\tsilent\tstates\tmoves\tresult\ttrue\tfalse\tseconds"
HEAD = """| Protocol | Source | States, moves | Result | Goal for true | Goal for false | Seconds |
|---|---|---|---|---|---|---|
"""
SECONDS = 60.0
NONE = "-"


@dataclass(frozen=True)
class Line:
    """What came of one protocol."""

    name: str
    source: str
    silent: bool
    states: int
    moves: int
    result: str
    true: str
    false: str
    seconds: float

    def text(self) -> str:
        """As it stands in the file."""
        return "\t".join(map(str, astuple(self)))


def rows() -> Iterator[dict[str, Any]]:
    """The protocols."""
    for line in NETS.read_text(encoding="utf-8").splitlines():
        yield json.loads(line)


def loaded_of(row: dict[str, Any]) -> LoadedNet:
    """A protocol with its predicate."""
    return LoadedNet(row["name"], net_of(row["net"]), row["pred"], [row["pred"]])


def goal_told(goal: Goal | None) -> str:
    """A goal in a few words."""
    if goal is None:
        return NONE
    sets = f", {len(goal.sets)} set{'' if len(goal.sets) == 1 else 's'}" if goal.sets else ""
    return f"{len(goal.listed)} moves in {len(goal.layers)}, {len(goal.nodes)} nodes{sets}"


def result_of(found: Outcome) -> str:
    """What the program says of what was found; or why nothing was."""
    if found.bundle is not None:
        return program.check(found.bundle.line()).first_line
    return "wrong" if found.flaw is not None else "not found"


def measured(row: dict[str, Any], seconds: float) -> Line:
    """One line, by the program where it is a verdict."""
    loaded = loaded_of(row)
    leaf = loaded.net.leaves[0]
    found = find(loaded, seconds, 0.3, processors())
    part = found.bundle.proof[0] if found.bundle is not None else None
    goals = (part.on_true, part.on_false) if isinstance(part, LeafGoals) else (None, None)
    took = sum(result.seconds for result in found.done.values())
    true, false = map(goal_told, goals)
    return Line(
        row["name"],
        row["source"],
        row["silent"],
        len(leaf.states),
        len(leaf.active),
        result_of(found),
        true,
        false,
        round(took, 1),
    )


def table() -> str:
    """The table of the page."""
    out = HEAD
    for text in RESULTS.read_text(encoding="utf-8").splitlines()[1:]:
        name, source, silent, states, moves, result, true, false, seconds = text.split("\t")
        said = f"{result}" + (" (silent)" if silent == "True" and result.startswith("stable") else "")
        out += f"| {name} | {source} | {states}, {moves} | {said} | {true} | {false} | {seconds} |\n"
    return out


def write() -> None:
    """Puts the table into its page."""
    text = PAGE.read_text(encoding="utf-8")
    before, _, rest = text.partition(BEGIN + "\n")
    _, _, after = rest.partition(END)
    PAGE.write_text(f"{before}{BEGIN}\n\n{table()}{END}{after}", encoding="utf-8")


def main(arguments: list[str]) -> None:
    """Measures, or writes the table."""
    if "--write" in arguments:
        write()
        return
    seconds = SECONDS
    if "--seconds" in arguments:
        at = arguments.index("--seconds")
        seconds = float(arguments[at + 1])
        del arguments[at : at + 2]
    lines = [HEADER]
    print(HEADER, flush=True)
    for row in rows():
        if not arguments or any(word in row["name"] for word in arguments):
            lines.append(measured(row, seconds).text())
            print(lines[-1], flush=True)
    if not arguments:
        RESULTS.write_text("\n".join(lines) + "\n", encoding="utf-8")


if __name__ == "__main__":
    main(sys.argv[1:])
