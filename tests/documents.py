#!/usr/bin/python3
"""Finds what documents name and the repository doesn't have: paths, commands, options, crates, functions, clauses,
sections.

Run at the top of the repository. Looked at are code spans, also those that a line's end divides, the command lines of
blocks of code, links, and the names of files in running text. Lines of documents have at most 120 columns, but for
tables and code. Sentences of documents, of help and of messages have at most 30 words (tests/sentences.py)."""
from __future__ import annotations

import re
import subprocess
import sys
from collections.abc import Iterator
from dataclasses import dataclass, field
from functools import cached_property
from pathlib import Path

from sentences import long_messages, long_sentences

TOP = Path(__file__).resolve().parent.parent
COLUMNS = 120
SPAN = re.compile(r"`([^`\n]+(?:\n[^`\n]+)?)`")
NAME = re.compile(r"(?<![A-Za-z0-9_])[A-Za-z_][A-Za-z0-9_]{2,}")
PATH = re.compile(r"^[\w.\-]+(?:/[\w.\-]+)+/?$")
OPTION = re.compile(r"(?<![\w-])--[a-z][a-z-]*")
METHOD = re.compile(r"\b([A-Z]\w+)::(\w+)")
LINK = re.compile(r"\]\(([^)#]+)[^)]*\)")
FILE = re.compile(
    r"(?<![\w/`.$*-])((?:\.\./)?(?:(?:docs|examples|hurleyoak|bench|tests|crates|bin)/[\w./-]*\w|[A-Z]{4,}\.md))"
)
SECTION = re.compile(r'([\w./-]*\w\.md),\s+"([^"]+)"|"([^"]+)"\s+(?:in|of)\s+([\w./-]*\w\.md)')
CLAUSE = re.compile(r"\b[Cc]lauses?\s+`(\w+)`")
COMMAND = re.compile(r"^\s*(?:\$ )?((?:bin|tests|bench)/\w[\w.]*|pop|rt|make)(?: +([a-z][\w-]*|--[a-z][\w-]*))?")
# what stands in the toolchain, in std, or in no file: names, options and commands of the kit, files that are made
ELSEWHERE = {"CRATE", "div_ceil", "lang", "made", "Over", "Deserialize", "Lts", "pip", "specification", "user"}
KIT = {"all", "check", "ci", "fmt", "must-fail", "new", "plant", "run", "tidy", "try", "verdict", "version"}
KIT_OPTIONS = {"--anew", "--fail-alloc", "--only", "--stage-times", "--test"}
BUILT = "out"
# its rows are comments of the crates
THEOREMS = "docs/trust/theorems.md"


@dataclass
class Repository:
    """The files of the repository, and what stands in them."""

    files: list[str]
    texts: dict[str, str] = field(default_factory=dict)

    @cached_property
    def words(self) -> set[str]:
        """Every word of the files that are no documents, and of all paths."""
        words = set(ELSEWHERE)
        for file in self.files:
            words.update(re.findall(r"[A-Za-z0-9_]+", file))
        for text in self.texts.values():
            words.update(re.findall(r"[A-Za-z0-9_]+", text))
        return words

    @cached_property
    def options(self) -> set[str]:
        """The options of the program, of the workbench and of the scripts."""
        return KIT_OPTIONS.union(*(OPTION.findall(text) for text in self.texts.values()))

    @cached_property
    def commands(self) -> set[str]:
        """The words that bin/pop knows: those that have a page of help."""
        helping = [
            text
            for file, text in self.texts.items()
            if re.match(r"hurleyoak/cli/table/(program|protocols|behaviour|other)\.py", file)
        ]
        return {"help", *(word for text in helping for word in re.findall(r'Command\(\s*"([\w-]+)"', text))}

    @cached_property
    def folders(self) -> set[str]:
        """The names of folders at the top, and of crates."""
        crates = {file.split("/")[1] for file in self.files if file.startswith("crates/")}
        return crates | {file.split("/")[0] for file in self.files if "/" in file}

    @cached_property
    def clauses(self) -> set[str]:
        """The names of clauses, and of the fields of records that stand for clauses."""
        found: set[str] = set()
        for file, text in self.texts.items():
            if file.startswith("crates/"):
                found.update(re.findall(r"\bensures (\w+) \{", text))
                found.update(re.findall(r"^  pub (\w+) : ", text, re.MULTILINE))
        return found

    @cached_property
    def types(self) -> set[str]:
        """The types of the crates."""
        return {
            name
            for file, text in self.texts.items()
            if file.endswith(".rt")
            for name in re.findall(r"\b(?:struct|enum|trait) ([A-Z]\w+)", text)
        }

    @cached_property
    def methods(self) -> set[tuple[str, str]]:
        """Types with the functions and variants that stand in the files that name them."""
        found: set[tuple[str, str]] = set()
        for file, text in self.texts.items():
            if file.endswith(".rt"):
                names = set(re.findall(r"\bfn (\w+)|^ +([A-Z]\w*)[,({ ]", text, re.MULTILINE))
                for owner in set(re.findall(r"\b(?:struct|enum|trait|impl(?:<[^>]*>)?|for) +([A-Z]\w+)", text)):
                    found.update((owner, one or other) for one, other in names)
        return found

    def has_path(self, path: str) -> bool:
        """Whether a path, from the top or from within crates/, is that of a file or a folder, with or without its
        ending."""
        parts = path.strip("/").split("/")
        if BUILT in parts:
            return True
        whole = "/" + "/".join(parts)
        ends = (whole, whole + ".antt", whole + ".rt", whole + ".py")
        return any(f"/{file}".endswith(ends) or f"{whole}/" in f"/{file}" for file in self.files)


def read_repository() -> Repository:
    listed = subprocess.run(["git", "ls-files"], cwd=TOP, capture_output=True, text=True, check=True)
    files = [file for file in listed.stdout.splitlines() if (TOP / file).is_file()]
    sources = [file for file in files if not file.endswith((".md", ".svg"))]
    return Repository(files, {file: (TOP / file).read_bytes().decode(errors="replace") for file in sources})


def command_faults(line: str, repository: Repository) -> Iterator[str]:
    """What is wrong with the first words of a command line."""
    found = COMMAND.match(line)
    if not found:
        return
    program, word = found.groups()
    if "/" in program and program != "bin/pop" and not repository.has_path(program):
        yield program
    if word and program in ("pop", "bin/pop") and word not in repository.commands:
        yield f"{program} {word}"
    if word and program == "rt" and word not in KIT:
        yield f"rt {word}"
    if word and program == "make" and f"\n{word}:" not in repository.texts["Makefile"]:
        yield f"make {word}"


def span_faults(span: str, repository: Repository) -> Iterator[str]:
    """What a code span names that isn't there: a path, else commands, options, methods, or words."""
    parts = span.rstrip("/").split("/")
    if PATH.match(span) and parts[0] in repository.folders:
        if not repository.has_path(span):
            yield span
        return
    yield from command_faults(span, repository)
    yield from (option for option in OPTION.findall(span) if option not in repository.options)
    for owner, name in METHOD.findall(span):
        if owner in repository.types and (owner, name) not in repository.methods:
            yield f"{owner}::{name}"
    yield from (name for name in NAME.findall(span) if name not in repository.words and not name.endswith("_"))


def sections(path: Path) -> set[str]:
    return {line.lstrip("# ").strip() for line in path.read_text().splitlines() if line.startswith("#")}


def found_document(name: str, folder: Path) -> Path | None:
    """The document of this name, beside the one that names it, or at the top."""
    return next((place / name for place in (folder, TOP) if (place / name).is_file()), None)


def text_faults(prose: str, folder: Path, repository: Repository) -> Iterator[tuple[int, str]]:
    """Links, files, sections and clauses that running text names, each with where."""
    for found in LINK.finditer(prose):
        if "://" not in found[1] and not (folder / found[1]).exists():
            yield found.start(), found[1]
    for found in FILE.finditer(SPAN.sub(lambda span: " " * len(span[0]), prose)):
        name = found[1].rstrip(".")
        if not (repository.has_path(name) or (folder / name).exists() or found_document(name, folder)):
            yield found.start(), name
    for found in SECTION.finditer(prose):
        document, title = (found[1], found[2]) if found[1] else (found[4], found[3])
        path = found_document(document.removeprefix("../"), folder)
        title = " ".join(title.split())
        if path is None or title not in sections(path):
            yield found.start(), f'"{title}" of {document}'
    for found in CLAUSE.finditer(prose):
        if found[1] not in repository.clauses:
            yield found.start(), f"clause {found[1]}"


def without_code(text: str) -> tuple[str, list[tuple[int, str]]]:
    """The running text, with blanks in place of blocks of code, and the lines of these blocks with their numbers."""
    prose, code, is_code = [], [], False
    for number, line in enumerate(text.split("\n"), 1):
        fence = line.startswith("```")
        if fence or is_code or line.startswith("    "):
            code.append((number, line))
            prose.append("")
        else:
            prose.append(line)
        is_code = is_code != fence
    return "\n".join(prose), code


def without_rows(text: str) -> str:
    """A text with blank lines in place of the rows of its tables."""
    return re.sub(r"^\|.*", "", text, flags=re.MULTILINE)


def document_faults(file: str, repository: Repository) -> Iterator[tuple[int, str]]:
    """What is wrong in a document: a line, and what it names."""
    prose, code = without_code((TOP / file).read_text())

    def line_at(place: int) -> int:
        return prose.count("\n", 0, place) + 1

    for found in SPAN.finditer(prose):
        for fault in span_faults(" ".join(found[1].split()), repository):
            yield line_at(found.start()), f"`{fault}`"
    for number, line in code:
        for fault in command_faults(line, repository):
            yield number, f"`{fault}`"
    for place, fault in text_faults(prose, (TOP / file).parent, repository):
        yield line_at(place), fault
    for number, line in enumerate(prose.split("\n"), 1):
        if len(line) > COLUMNS and not line.startswith(("|", "<!--")):
            yield number, f"{len(line)} columns"
    yield from long_sentences(prose if file != THEOREMS else without_rows(prose))


def crate_faults(repository: Repository) -> Iterator[str]:
    """Crates that the map of docs/develop/architecture.md lacks, or has too many; and a version that the changes don't
    begin with."""
    listed = {
        line.split(":")[0].split()[0]
        for line in repository.texts["crates.txt"].splitlines()
        if ":" in line and not line.startswith("#")
    }
    rows = re.findall(r"^\| (`[^|]*`) \|", (TOP / "docs/develop/architecture.md").read_text(), re.MULTILINE)
    named = {name for row in rows for name in re.findall(r"`(\w+)`", row)}
    yield from (f"docs/develop/architecture.md: crate {name}" for name in sorted(listed ^ named))
    release = re.search(r'^RELEASE = "(.*)"', repository.texts["hurleyoak/version.py"], re.MULTILINE)
    first = re.search(r"^## (.*)", (TOP / "CHANGELOG.md").read_text(), re.MULTILINE)
    if not release or not first or release[1] != first[1]:
        yield "CHANGELOG.md: its first version is not that of `pop --version`"


def main() -> int:
    """Prints each place with a name that stands nowhere; the status is 1 if there is one."""
    repository = read_repository()
    faults = [
        f"{file}:{number}: {fault}"
        for file in repository.files
        if file.endswith(".md")
        for number, fault in sorted(set(document_faults(file, repository)))
    ]
    faults += [
        f"{file}:{number}: {fault}"
        for file, text in repository.texts.items()
        if file.startswith("hurleyoak/") and file.endswith(".py")
        for number, fault in sorted(long_messages(text))
    ]
    faults += crate_faults(repository)
    for fault in faults:
        print(fault)
    return 1 if faults else 0


if __name__ == "__main__":
    sys.exit(main())
