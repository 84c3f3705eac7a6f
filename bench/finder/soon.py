"""Says of each example how soon it comes to rest: `python3 -m bench.finder.soon` writes it into examples/README.md.

What is tame is so by the workbench's test, which the program's agrees with (tests/workbench/test_soon.py); of the others
exact chains of few agents are solved.
"""
from __future__ import annotations

from pathlib import Path
from typing import Iterator

from hurleyoak.engine.places import TOP
from hurleyoak.proof.bundles import Bundle
from hurleyoak.proof.tame import is_tame_bundle
from hurleyoak.simulation.chains import longest_of
from hurleyoak.text.files import load_path
from hurleyoak.text.loaded import strict_bundle

PAGE = TOP / "examples" / "README.md"
BEGIN = "<!-- soon: written by `/usr/bin/python3 -m bench.finder.soon` -->\n"
END = "<!-- end of soon -->\n"
UNCERTIFIED = "approximate-majority"


def examples() -> Iterator[tuple[str, Bundle]]:
    """The certified examples by name, those of folders first."""
    folders = [path.parent / f"{path.parent.name}.pop" for path in (TOP / "examples").glob("*/bundle.json")]
    for path in [*sorted(folders), *sorted((TOP / "examples" / "found").glob("*.pop"))]:
        if path.stem != UNCERTIFIED:
            yield path.stem, strict_bundle(load_path(str(path)))


def table() -> str:
    """The lines of both tables."""
    tame: dict[int, list[str]] = {}
    slow = []
    for name, bundle in examples():
        if is_tame_bundle(bundle):
            tame.setdefault(sum(part.bound for part in bundle.proof), []).append(f"`{name}`")
        else:
            slow.append(_slow_row(name, bundle))
    lines = ["| K | Tame |", "|---|---|"]
    lines += [f"| {bound} | {', '.join(names)} |" for bound, names in sorted(tame.items())]
    return "\n".join([*lines, "", "| Not tame | Meetings on average |", "|---|---|", *slow]) + "\n"


def _slow_row(name: str, bundle: Bundle) -> str:
    found = max(
        (one for leaf in bundle.net.leaves if (one := longest_of(leaf)) is not None), key=lambda one: one.meetings
    )
    crowd = " ".join(f"{variable}={k}" for variable, k in zip(bundle.net.names, found.counts))
    return f"| `{name}` | {round(found.meetings):,} at {found.agents} agents, {crowd} |"


def written(text: str) -> str:
    """The page with the tables in it."""
    before, _, rest = text.partition(BEGIN)
    return f"{before}{BEGIN}\n{table()}\n{END}{rest.partition(END)[2]}"


def main(page: Path) -> None:
    """Writes the page."""
    page.write_text(written(page.read_text()))


if __name__ == "__main__":
    main(PAGE)
