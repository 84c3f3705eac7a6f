"""Small programs that a bench proves and builds over copies of the crates that they call."""

from __future__ import annotations

import os
import shutil
import subprocess
from collections.abc import Iterable
from dataclasses import dataclass

from common import TOP


@dataclass
class Small:
    """A small program: the crates that it names, and its files by their places in its crate."""

    uses: list[str]
    files: dict[str, str]


def lines_below(names: Iterable[str]) -> dict[str, str]:
    """The lines of crates.txt for some crates of the repository and all that they stand on, from the bottom up."""
    with open(os.path.join(TOP, "crates.txt")) as file:
        lines = {line.split(":")[0]: line for line in file if ":" in line and not line.startswith("#")}
    wanted: set[str] = set()
    left = list(names)
    while left:
        name = left.pop()
        if name in lines and name not in wanted:
            wanted.add(name)
            left += lines[name].split(":")[1].split()
    return {name: line for name, line in lines.items() if name in wanted}


def write(path: str, text: str) -> None:
    """Writes a file, and makes the folders that it lacks."""
    os.makedirs(os.path.dirname(path), exist_ok=True)
    with open(path, "w") as file:
        file.write(text)


def built_over(folder: str, programs: dict[str, Small]) -> dict[str, str]:
    """Proves and builds programs in a folder of their own; where each stands."""
    lines = lines_below(name for program in programs.values() for name in program.uses)
    for name in lines:
        shutil.copytree(
            os.path.join(TOP, "crates", name),
            os.path.join(folder, "crates", name),
            ignore=shutil.ignore_patterns("out", "must-fail"),
        )
    own = [f"{name}: {' '.join(program.uses)}\n" for name, program in programs.items()]
    write(os.path.join(folder, "crates.txt"), "".join([*lines.values(), *own]))
    subprocess.run(["git", "init", "-q"], cwd=folder, check=True)
    crates = {name: os.path.join(folder, "crates", name) for name in programs}
    for name, program in programs.items():
        for place, text in program.files.items():
            write(os.path.join(crates[name], place), text)
    quiet = subprocess.DEVNULL
    for crate in crates.values():
        subprocess.run(["rt", "run"], cwd=crate, stdin=quiet, stdout=quiet, stderr=quiet)
    return {name: os.path.join(crate, "out", name) for name, crate in crates.items()}
