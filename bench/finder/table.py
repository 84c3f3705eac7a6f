"""The tables of MEASURED.md, beside this file, from the lines of `run`: `python3 -m bench.finder.table FILE
[--each]`."""
from __future__ import annotations

import sys
from pathlib import Path


def rows_of(path: Path) -> list[list[str]]:
    """The fields of each line but the first."""
    return [line.split("\t") for line in path.read_text().splitlines()[1:]]


def _range(texts: list[str]) -> str:
    numbers = sorted(float(t) for t in texts)
    low, high = (f"{n:g}" for n in (numbers[0], numbers[-1]))
    return low if low == high else f"{low} to {high}"


def by_family(rows: list[list[str]]) -> list[str]:
    """One row for each family."""
    families: dict[str, list[list[str]]] = {}
    for row in rows:
        families.setdefault(row[0], []).append(row)
    out = [
        "| Family | Nets | Certified | States | Moves | Seconds, most | Nodes, most | K |",
        "|---|---|---|---|---|---|---|---|",
    ]
    for family, some in families.items():
        good = [row for row in some if row[6].startswith("certified")]
        nodes = max(
            (part.split(",") for row in good for part in row[5].split(" ")),
            key=lambda part: int(part[0]) + int(part[1]),
        )
        bounds = _range([row[6].split()[1] for row in good])
        out.append(
            f"| {family} | {len(some)} | {len(good)} | {_range([r[2] for r in some])} |"
            f" {_range([r[3] for r in some])} | {max(float(r[4]) for r in some):g} | {', '.join(nodes)} | {bounds} |"
        )
    return out


def each(rows: list[list[str]]) -> list[str]:
    """One row for each net."""
    out = ["| Net | States | Moves | Seconds | Nodes | K |", "|---|---|---|---|---|---|"]
    for family, name, states, moves, seconds, nodes, result in rows:
        name = name.replace("|", "\\|")
        out.append(
            f"| {family}: {name} | {states} | {moves} | {seconds} | {nodes.replace(',', ', ')} |"
            f" {result.removeprefix('certified ')} |"
        )
    return out


def main(arguments: list[str]) -> None:
    """Prints a table."""
    rows = rows_of(Path(arguments[0]))
    print("\n".join(each(rows) if "--each" in arguments else by_family(rows)))


if __name__ == "__main__":
    main(sys.argv[1:])
