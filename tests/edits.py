#!/usr/bin/python3
"""The edits that the gate leaves out: the prover must refuse each edit of crates/NAME/must-fail-long.

tests/edits.py [NAME..] copies the crates into a folder of its own, with these edits in the place of those of must-fail,
and tries them by `rt must-fail`, a crate after the other. Of all crates that takes an hour and a half on four
processors. It prints what `rt` says, and ends with the status of the first crate that failed."""

import shutil
import subprocess
import sys
import tempfile
from pathlib import Path

TOP = Path(__file__).resolve().parent.parent
SHORT = "must-fail"
LONG = "must-fail-long"
BESIDE = ("crates.txt", "HANDLES")


def has_edits(crate: Path) -> bool:
    return any((crate / LONG).glob("*.edit"))


def copy_crates(to: Path) -> None:
    """Copies the crates with the long edits alone; what checks kept comes along, which saves the first check."""
    shutil.copytree(TOP / "crates", to / "crates", ignore=shutil.ignore_patterns(SHORT))
    for crate in (to / "crates").iterdir():
        if has_edits(crate):
            (crate / LONG).rename(crate / SHORT)
    for name in BESIDE:
        shutil.copy(TOP / name, to / name)


def main() -> int:
    names = sys.argv[1:] or sorted(crate.name for crate in (TOP / "crates").iterdir() if has_edits(crate))
    first = 0
    with tempfile.TemporaryDirectory() as folder:
        copy_crates(Path(folder))
        for name in names:
            status = subprocess.run(["rt", "must-fail", name], cwd=folder, check=False).returncode
            first = first or status
    return first


if __name__ == "__main__":
    sys.exit(main())
