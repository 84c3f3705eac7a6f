#!/usr/bin/python3
"""Names that nothing uses: lemmas and definitions that stand nowhere else, names of `ghost use` that a scope lacks,
names that a crate hands on from another one and nobody takes from it, and public functions that only tests call.

Run it at the top of the repository; with folders of crates it looks at these alone. It prints a line for each name,
and ends with the status 1 where there is one."""

import re
import sys
from collections.abc import Iterator
from dataclasses import dataclass
from pathlib import Path

NAME = re.compile(r"\[\]|[^\s(){}\[\],;.`]+")
BEHIND_MODULE = re.compile(r"\b[A-Z]\w*(?:\.|::)([^\s(){}\[\],;.`:]+)")
IMPORT = re.compile(r"\buse ([\w.'+-]+)\.\{([^}]*)\}")
GHOST_USE = re.compile(r"^( *)ghost use [\w.'+-]+\.\{([^}]*)\};")
DECLARED = re.compile(r"^( *)((?:abbrev |unfoldable |pub |record |data )*)([^\s:(){}.]+)(?= :| [({])")
PLACED = re.compile(r"^( *)([^\s:(){}.]+) ")
WORDS = {"use", "mod", "module", "where", "let", "in", "case", "unfolding", "syntax", "ruleset"}
USE = re.compile(r"^ *(pub )?use (\w+)((?:::\w+)*)(?:::\{([^}]*)\})?;", re.MULTILINE)
PATH = re.compile(r"\b(\w+)::(\w+)")
WORD = re.compile(r"\w+")
FUNCTION = re.compile(r"^ *pub (?:unsafe )?fn (\w+)")
IS_LAW = re.compile(r"\{\}$")

# Crates of tests alone, which no program stands on.
TEST_CRATES = re.compile(r"\w+_tests|sample_nets")

# What the design names as a crate's public surface, whoever uses it.
KEPT = {
    "agent_field": {"close"},
    "cert_json": {"read_proof"},
    "cert_linear": {"linear_closes", "residue_closes"},
    "cert_tree": {"TreeFault", "TreeWhy"},
    "comp_net": {"compile_flocks"},
    "net_json": {"FormatFault", "PredWhy", "Why"},
    "pair_workers": {"Picker", "RunEnd", "run_all", "run_alone", "run_round"},
    "pop_journal": {"JournalWhy", "Last", "write_journal"},
    "pop_net": {"LeafFault"},
    "pop_tool": {"run_calm"},
}


@dataclass
class Unused:
    """A name that nothing uses, and where it stands."""

    path: Path
    line: int
    kind: str
    name: str

    def __str__(self) -> str:
        return f"{self.path}:{self.line}: {self.kind} {self.name}"


def is_made(path: Path) -> bool:
    return "out" in path.parts


def every_crate() -> list[Path]:
    return sorted(Path("crates").iterdir())


def sources(crates: list[Path], suffix: str) -> Iterator[Path]:
    for crate in crates:
        for path in sorted(crate.rglob(f"*{suffix}")):
            if not is_made(path.relative_to(crate)):
                yield path


def imported(listed: str) -> Iterator[tuple[str, str]]:
    """The names between the braces of a `use`: each with the one that the file knows it by."""
    for item in filter(None, (part.strip() for part in listed.split(","))):
        name, _, alias = item.partition(" as ")
        yield name.strip(), (alias or name).strip()


def without_comment(line: str, sign: str) -> str:
    return re.sub(rf"(^|\s){sign}.*$", "", line)


# ---- lemmas and definitions


@dataclass
class Declaration:
    """A name that a file declares, and the lines that say what it is."""

    name: str
    first: int
    last: int


def declarations(lines: list[str]) -> list[Declaration]:
    """Those at the head of the file and of its nameless modules. What answers a goal of the check is none of them."""
    found: list[Declaration] = []
    indents = {0}
    for number, line in enumerate(lines):
        if line[:1].strip():
            indents = {0, 2} if line.startswith("module _") else {0}
        match = DECLARED.match(line)
        if not match or len(match[1]) not in indents:
            continue
        if match[3] in WORDS or (not match[2] and " : " not in line):
            continue
        if "goal." not in line:
            found.append(Declaration(match[3], number, end_of(lines, number, match[3])))
    return found


def end_of(lines: list[str], first: int, name: str) -> int:
    """The last line of a declaration: it goes on while lines are indented deeper or define the same name."""
    indent = len(lines[first]) - len(lines[first].lstrip())
    last = first
    for number in range(first + 1, len(lines)):
        line = lines[number]
        if not line.strip() or line.lstrip().startswith(("--", "unfolding ")):
            continue
        head = PLACED.match(line + " ")
        same = head is not None and head[2] == name
        closes = line.lstrip().startswith(("}", ")", "]"))
        if len(line) - len(line.lstrip()) <= indent and not same and not closes:
            return last
        last = number
    return last


def names_outside(lines: list[str], declared: Declaration) -> set[str]:
    outside = [*lines[: declared.first], *lines[declared.last + 1 :]]
    return {name for line in outside for name in NAME.findall(line)}


def module_of(path: Path) -> str:
    """How imports name a file: `crates/a/proofs/B.antt` is `Rattle.a.proofs.B`."""
    return ".".join(["Rattle", *path.with_suffix("").parts[-path_depth(path) :]])


def path_depth(path: Path) -> int:
    """How many parts of a path its module's name has: from the crate's name on."""
    parts = path.parts
    last = max(place for place, part in enumerate(parts) if part in ("proofs", "specs"))
    return len(parts) - last + 1


def names_elsewhere(texts: list[str]) -> set[str]:
    """What some file imports, with its module, and the bare names that stand behind a module's name."""
    found: set[str] = set()
    for text in texts:
        for match in IMPORT.finditer(text):
            found.update(f"{match[1]}.{name}" for name, _ in imported(match[2]))
        found.update(BEHIND_MODULE.findall(text))
    return found


def sign_of(name: str) -> str:
    """By what a name is seen: an operator by its first sign, as `then` for `if◌then◌else◌`."""
    parts = [part for part in name.split("◌") if part and part != "if"]
    return parts[0] if "◌" in name and parts else name


def unused_declarations(crates: list[Path]) -> Iterator[Unused]:
    texts = [path.read_text() for suffix in (".antt", ".rt") for path in sources(every_crate(), suffix)]
    used = names_elsewhere(texts)
    for path in sources(crates, ".antt"):
        lines = [without_comment(line, "--") for line in path.read_text().split("\n")]
        for declared in declarations(lines):
            if declared.name in used or f"{module_of(path)}.{declared.name}" in used:
                continue
            if sign_of(declared.name) not in names_outside(lines, declared):
                yield Unused(path, declared.first + 1, "nothing names", declared.name)


# ---- names of `ghost use`


def scope_end(lines: list[str], number: int, indent: int) -> int:
    """Where the block that an import stands in ends: the file's end for one at its head."""
    if indent == 0:
        return len(lines)
    for after in range(number + 1, len(lines)):
        if lines[after].startswith(" " * (indent - 4) + "}"):
            return after
    return len(lines)


def unused_imports(crates: list[Path]) -> Iterator[Unused]:
    for path in sources(crates, ".rt"):
        lines = [without_comment(line, "//") for line in path.read_text().split("\n")]
        body = ["" if GHOST_USE.match(line) else line for line in lines]
        for number, line in enumerate(lines):
            match = GHOST_USE.match(line)
            if not match:
                continue
            scope = body[number : scope_end(lines, number, len(match[1]))]
            named = {name for each in scope for name in NAME.findall(each)}
            for _, name in imported(match[2]):
                if sign_of(name) not in named:
                    yield Unused(path, number + 1, "the source doesn't use", name)


# ---- names that a crate hands on, and public functions


def is_of_tests(crate: str) -> bool:
    return TEST_CRATES.fullmatch(crate) is not None


def uses(text: str) -> Iterator[tuple[bool, str, str]]:
    """The names that a source takes by `use`: whether it hands them on, from which crate, and the name."""
    for match in USE.finditer(text):
        names = [name for name, _ in imported(match[4])] if match[4] else [match[3].rpartition("::")[2]]
        for name in names:
            yield bool(match[1]), match[2], name


def taken_from(crates: list[Path]) -> set[tuple[str, str]]:
    """A crate and a name that the sources of another one take from it."""
    found: set[tuple[str, str]] = set()
    for path in sources(crates, ".rt"):
        text = without_comments(path.read_text())
        found.update((crate, name) for _, crate, name in uses(text))
        found.update((match[1], match[2]) for match in PATH.finditer(text))
    return found


def without_comments(text: str) -> str:
    return "\n".join(without_comment(line, "//") for line in text.split("\n"))


def unused_hands(crates: list[Path]) -> Iterator[Unused]:
    names = {crate.name for crate in every_crate()}
    taken = taken_from([crate for crate in every_crate() if not is_of_tests(crate.name)])
    for path in (crate / "src" / "lib.rt" for crate in crates if (crate / "src" / "lib.rt").exists()):
        text = path.read_text()
        here = path.parts[-3]
        for is_public, crate, name in uses(text):
            handed = is_public and crate in names and (here, name) not in taken
            if handed and name not in KEPT.get(here, set()):
                yield Unused(path, line_of(text, name), f"nobody takes from {here}", name)


def line_of(text: str, name: str) -> int:
    """The line of the first `pub use` behind which a name stands."""
    found = re.search(rf"^pub use [^;]*\b{name}\b", text, re.MULTILINE)
    return text.count("\n", 0, found.end()) + 1 if found else 1


def calls(text: str) -> set[str]:
    """The words of a source, but for those of its comments, its imports and the heads of its functions."""
    body = USE.sub("", without_comments(text))
    return set(
        WORD.findall("\n".join(line for line in re.sub(r"\bfn \w+", "", body).split("\n") if "ghost" not in line))
    )


def is_law(lines: list[str], number: int) -> bool:
    """Whether a function has no body: its contract is a theorem."""
    for line in lines[number:]:
        if line.rstrip().endswith("{}"):
            return True
        if line.lstrip().startswith("{") or line.rstrip().endswith(" {"):
            return False
    return False


def uncalled_functions(crates: list[Path]) -> Iterator[Unused]:
    called: set[str] = set()
    for path in sources([crate for crate in every_crate() if not is_of_tests(crate.name)], ".rt"):
        called |= calls(path.read_text())
    for path in sources([crate for crate in crates if not is_of_tests(crate.name)], ".rt"):
        lines = path.read_text().split("\n")
        here = path.parts[path.parts.index("src") - 1]
        for number, line in enumerate(lines):
            match = FUNCTION.match(line)
            if not match or match[1] in called | KEPT.get(here, set()) or is_law(lines, number):
                continue
            yield Unused(path, number + 1, "only tests call", match[1])


def main() -> int:
    crates = [Path(given) for given in sys.argv[1:]] or every_crate()
    found = [*unused_declarations(crates), *unused_imports(crates), *unused_hands(crates), *uncalled_functions(crates)]
    for each in found:
        print(each)
    return 1 if found else 0


if __name__ == "__main__":
    sys.exit(main())
