"""The definitions of crates/*/specs, as they stand there: names, lines, comments, and what each rests on."""
from __future__ import annotations

import re
from collections.abc import Iterable, Iterator
from dataclasses import dataclass, field
from pathlib import Path

CRATES = Path("crates")
IMPORT = re.compile(r"use Rattle\.(\w+)\.specs\.([\w.]+?)(?:\.\{([^}]*)\}| as (\w+))?;?$")
DEFINED = re.compile(r"^(?:(?:abbrev|unfoldable|pub|record|data) )+([^\s:(){}]+)")
MARKED = re.compile(r"^ *(?:pub )?(?:abbrev|unfoldable|record|data) (?:pub )?([^\s:(){}]+)")
CONSTRUCTOR = re.compile(r"^ +(?:pub )?([^\s:(){}]+) : ")
FIELD = re.compile(r"^  pub ([^\s:(){}]+) : ")
NAME = re.compile(r"[^\s(){}\[\],;`]+")
Key = tuple[str, str, str]


@dataclass
class Field:
    """A field of a record: where it stands, its comment, what it says."""

    name: str
    line: int
    comment: str
    statement: str


@dataclass
class Definition:
    """A definition of specs/: where it stands, its lines, its comment, and the names that it uses."""

    crate: str
    module: str
    name: str
    line: int
    comment: str
    text: list[str] = field(default_factory=list)
    uses: dict[str, Key] = field(default_factory=dict)
    types: dict[str, tuple[str, str]] = field(default_factory=dict)

    @property
    def key(self) -> Key:
        return self.crate, self.module, self.name

    @property
    def file(self) -> str:
        return f"crates/{self.crate}/specs/{self.module.replace('.', '/')}.antt"

    @property
    def is_record(self) -> bool:
        return "record" in self.text[0].split(":")[0]

    def constructors(self) -> Iterator[str]:
        """The constructors of a data type."""
        if "data" in self.text[0].split(":")[0]:
            yield from (found[1] for line in self.text[1:] if (found := CONSTRUCTOR.match(line)))

    def _statement(self, at: int) -> str:
        """What stands behind a field's name."""
        lines = [self.text[at].split(" : ", 1)[1]]
        for line in self.text[at + 1 :]:
            if not line.startswith("    "):
                break
            lines.append(line.strip())
        return " ".join(lines)

    def fields(self) -> Iterator[Field]:
        """The fields of a record."""
        note: list[str] = []
        for at, line in enumerate(self.text):
            found = FIELD.match(line)
            if found:
                yield Field(found[1], self.line + at, " ".join(note), self._statement(at))
            note = [*note, line.strip()[3:]] if line.strip().startswith("-- ") else []


def imports(lines: Iterable[str]) -> dict[str, Key]:
    """What each imported name of definitions means: crate, module, name. A module that is named whole stands as
    `alias.`."""
    out: dict[str, Key] = {}
    for line in lines:
        found = IMPORT.match(line.strip().removeprefix("ghost "))
        if not found or found[2].startswith("declared"):
            continue
        crate, module, listed, alias = found.groups()
        if alias:
            out[alias + "."] = crate, module, ""
        for item in filter(None, (part.strip() for part in (listed or "").split(","))):
            name, _, short = item.partition(" as ")
            out[short or name] = crate, module, name
    return out


def rust_types(lines: Iterable[str]) -> dict[str, tuple[str, str]]:
    """What each imported name of a Rust type, a variant or a constant means: crate, and the name of the type or
    constant."""
    out: dict[str, tuple[str, str]] = {}
    for line in lines:
        found = IMPORT.match(line.strip().removeprefix("ghost "))
        if not found or not found[2].startswith("declared."):
            continue
        crate, module, listed, alias = found.groups()
        parts = module.split(".")
        if alias:
            out[alias + "."] = crate, parts[-2]
        for item in filter(None, (part.strip() for part in (listed or "").split(","))):
            name, _, short = item.partition(" as ")
            out[short or name] = crate, parts[-2] if parts[-1] == "TheVariants" else name
    return out


def read_specs(path: Path, crate: str) -> Iterator[Definition]:
    """The definitions of a file: those that stand alone, and those in a `module _ .. where` or in a `mutual` block."""
    lines = path.read_text().splitlines()
    uses, types = imports(lines), rust_types(lines)
    module = ".".join(path.relative_to(CRATES / crate / "specs").with_suffix("").parts)
    now: Definition | None = None
    note: list[str] = []
    block = False
    for number, line in enumerate(lines, 1):
        opens = line.startswith("module ") or line == "mutual"
        block = opens or block and (not line.strip() or line.startswith("  "))
        now = None if opens else now
        inner = line[2:] if block and line.startswith("  ") else line
        found = DEFINED.match(inner)
        if found and not inner.startswith("  pub "):
            now = Definition(crate, module, found[1], number, " ".join(note), uses=uses, types=types)
            yield now
        elif line.startswith(("use ", "mod ", "pub mod ", "module ", "infix")):
            now = None
        if now is not None and line.strip():
            if not inner.startswith("-- "):
                now.text.append(inner)
        note = [*note, line.strip()[3:]] if line.strip().startswith("-- ") else []


def marked_names() -> set[Key]:
    """The names that stand behind a mark of a definition, at whatever depth: what `read_specs` has to find."""
    out: set[Key] = set()
    for path in sorted(CRATES.glob("*/specs/**/*.antt")):
        module = ".".join(path.relative_to(CRATES / path.parts[1] / "specs").with_suffix("").parts)
        found = (MARKED.match(line) for line in path.read_text().splitlines())
        out |= {(path.parts[1], module, name[1]) for name in found if name}
    return out


def all_definitions() -> dict[Key, Definition]:
    out: dict[Key, Definition] = {}
    for path in sorted(CRATES.glob("*/specs/**/*.antt")):
        for definition in read_specs(path, path.parts[1]):
            out.setdefault(definition.key, definition)
    return out


def names_in(text: str, uses: dict[str, Key], home: tuple[str, str] | None = None) -> Iterator[Key]:
    """The definitions that a text names."""
    operators = {name.replace("◌", ""): key for name, key in uses.items() if "◌" in name}
    for word in NAME.findall(text):
        for part in (word, word.split(".")[0]):
            if part in uses:
                yield uses[part]
            elif part in operators:
                yield operators[part]
            elif home:
                yield (*home, part)
        alias, dot, rest = word.partition(".")
        if dot and alias + dot in uses:
            yield (*uses[alias + dot][:2], rest)


class Rests:
    """What definitions rest on."""

    def __init__(self, known: dict[Key, Definition]) -> None:
        self.known = known
        self.owners = {
            (d.crate, d.module, constructor): key for key, d in known.items() for constructor in d.constructors()
        }
        self.marked = marked_names()
        self.named = {key: self._named(definition) for key, definition in known.items()}
        self.direct = {key: named & known.keys() for key, named in self.named.items()}

    def _named(self, definition: Definition) -> set[Key]:
        """The names of definitions that a definition uses, whether they were found or not."""
        text = "\n".join(line for line in definition.text if not line.strip().startswith("--"))
        found = names_in(text, definition.uses, (definition.crate, definition.module))
        owned = {self.owners.get(key, key) for key in found}
        return {key for key in owned if key != definition.key and (key in self.known or key in self.marked)}

    def beneath(self, roots: Iterable[Key], but: frozenset[str] = frozenset()) -> set[Key]:
        """The roots and all below them, but for what these names alone lead to."""
        seen: set[Key] = set()
        left = [key for key in roots if key in self.known and key[2] not in but]
        while left:
            key = left.pop()
            if key not in seen:
                seen.add(key)
                left += [below for below in self.direct[key] if below[2] not in but]
        return seen

    def unlisted(
        self, listed: set[Key], but: frozenset[str] = frozenset(), above: frozenset[Key] = frozenset()
    ) -> set[Key]:
        """What a listed definition names, and neither the list nor those above it have."""
        named = {key for user in listed for key in self.named[user] if key[2] not in but}
        return named - listed - above

    def lines(self, keys: Iterable[Key]) -> int:
        return sum(len(self.known[key].text) for key in keys)

    def rust_lines(self, keys: Iterable[Key]) -> int:
        """The lines of the Rust types and the limits that these definitions name."""
        named: set[tuple[str, str]] = set()
        for key in keys:
            definition = self.known[key]
            for word in NAME.findall("\n".join(definition.text)):
                named |= {
                    definition.types[part]
                    for part in (word, word.split(".")[0], word.split(".")[0] + ".")
                    if part in definition.types
                }
        return sum(lines_of_type(crate, name) for crate, name in named)


def lines_of_type(crate: str, name: str) -> int:
    """The lines of a struct, an enum or a constant, without its documentation."""
    for path in sorted((CRATES / crate / "src").glob("**/*.rt")):
        lines = path.read_text().splitlines()
        for at, line in enumerate(lines):
            if re.match(rf"pub const {name}\b", line):
                return 1
            if re.match(rf"pub (?:struct|enum) {name}\b", line):
                if line.rstrip().endswith((";", "}")):
                    return 1
                end = next(i for i in range(at, len(lines)) if lines[i] == "}")
                return sum(1 for row in lines[at : end + 1] if not row.strip().startswith("//"))
    return 0
