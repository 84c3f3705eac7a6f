#!/usr/bin/python3
"""Makes docs/trust/theorems.md: every public contract, clause by clause, with the definitions that it rests on.

Run it at the top of the repository: `tests/theorems.py` compares the file with the sources, and its status is 1 where
they differ; `tests/theorems.py --write` writes it."""
from __future__ import annotations

import re
import sys
import textwrap
from collections.abc import Iterable, Iterator
from dataclasses import dataclass
from pathlib import Path

from definitions import CRATES, Definition, Field, Key, Rests, all_definitions, imports, names_in

DOCUMENT = Path("docs/trust/theorems.md")
DATA = re.compile(r"(?:[ ()ℕ]|List|Meeting|Take|Bundle|Last|Journal|RunSpec|PredModel|CrowdModel)+")
FUNCTION = re.compile(r"^( *)pub (?:unsafe )?fn (\w+)")
CLAUSE = re.compile(r"^ *ensures (?:([\w]+) )?\{ ?")
NO_PART_OF_THE_PROGRAM = {"sample_nets"}
HEADLINE = ("Headline", "CheckSays", "IsShownLine", "RunSays", "SettleSays", "IsHeldInput", "CompileSays")
PROMISES = (
    ("the whole input was read, or the fault has its cause", "read_all"),
    ("the whole text was written, or a prefix of it and the fault has its cause", "write_all"),
    ("the words mean this command, or this is the first bad word", "read_words"),
    ("a line names these variables, counts, agents", "read_vars, read_counts, read_meeting"),
    ("a value is the file of this net, or this is the first broken rule", "read_net"),
    (
        "the input crowd, a meeting, a replay, the crowd lines",
        "Crowd::of_counts, Crowd::meet, Crowd::replay, Crowd::tally",
    ),
    ("a crowd is terminal", "PairTable::is_terminal"),
    ("a crowd is terminal, or this is the least pair that changes", "PairTable::enabled_pair"),
    (
        "the rounds are a run of the model, whose text grows with it; by one worker the only one",
        "push_run, push_run_alone",
    ),
    (
        "the rounds are a run of the model; of `watch` the last may lack meetings where its end is terminal",
        "run_all, whole_runs_are_watched",
    ),
    (
        "a meeting is one event of one history, whatever the schedule",
        "Field::meet, Field::close, each_moment_stands, plays_are_kinds",
    ),
    ("the text of a run that was made before", "write_journal"),
    ("a text is this journal, or this is its first malformed line", "read_journal"),
    ("a journal is that of a run, or this is its first line that isn't the expected one", "verify, verify_settled"),
    (
        "a journal that holds has one spelling; what a run wrote holds",
        "one_spelling, one_spelling_until, written_holds, written_holds_until, replay_holds",
    ),
    ("layers end every crowd within a bound; a tree leaves no wrong end", "check_layers, check_tree"),
    (
        (
            "every fair execution stabilises where a right terminal crowd can always be reached; each finite one"
            " begins a fair one"
        ),
        (
            "fair_executions_stabilise, finite_executions_extend, fair_maps_are_fair_multisets, standing_crowds,"
            " times_are_found"
        ),
    ),
    (
        (
            "meetings of uniformly random pairs settle with probability 1 where few meetings can always lead there,"
            " and how soon"
        ),
        "random_meetings_compute, falling_is_cubic, runs_are_uniform",
    ),
    (
        "each ordered pair of agents is the pick of equally many of the 2^64 words, up to an exact rest",
        "picks_are_uniform",
    ),
    ("a crowd's only settlement, within the proof's bound, and its last crowd is terminal", "settle, settlements_end"),
    (
        (
            "the only settlement by the goals that an input chooses, the net of their moves, and where none of these is"
            " possible the outputs are right for ever"
        ),
        "settle_goals, resting_net, settlements_rest",
    ),
    ("a value is the file of this proof, or this is the first broken rule", "read_proof"),
    (
        "a leaf computes a threshold, a remainder, a flock, and its proof is valid",
        "threshold, remainder, flock, offset_flock, prefix_flock, powers",
    ),
    (
        "a proof is valid, or this is its first part that fails; a checked net computes its predicate",
        "check, Checked::bound",
    ),
    (
        "a proof with goals is valid, or this is its first part that fails; then the net is stably right",
        "check_stable, valid_is_stably_right",
    ),
    ("a value is the file of this bundle with goals, or this is the first broken rule", "read_stable_bundle"),
    ("a text is read to this predicate, or this is the first fault; the grammar gives it this meaning", "read_pred"),
    (
        "a predicate has this net, with a valid proof, or this is why it has none",
        "compile_with, compile, compile_flocks",
    ),
    (
        "a bundle's line is read back to the bundle; what was compiled is certified",
        "bundles_are_read_back, compiled_is_certified",
    ),
    (
        "what is shown of a bundle is its net, its predicate, its layers and goals; all else is as `check` says it",
        "push_shown, shown_is_checked",
    ),
    ("no two names, lists of states, moves or predicates are shown alike", "lines_tell"),
    (
        "one text of `show` has one net, one predicate, and one proof up to its trees and the numbers of equal moves",
        "text_tells",
    ),
    ("the predicate's value", "Pred::eval"),
    (
        (
            "the text and the status are the answer to the words and the bytes; what `certified`, a journal, a verdict"
            " and `holds` say"
        ),
        "run_plain, run_tool",
    ),
    ("the words and the input have one answer, where nothing is left to threads or to the compiler", "one_answer"),
    ("valid input is answered over a source and a sink that never fail", "run_calm"),
)
LIBRARY_ALONE = {"run_all", "write_journal", "run_calm"}
TOP_CRATES = (
    "tool_texts",
    "tool_bundles",
    "tool_nets",
    "tool_rejections",
    "tool_proofs",
    "tool_courses",
    "tool_replays",
    "tool_runs",
    "tool_demos",
    "pop_tool",
    "pop_main",
)
BELOW_CHECK = (
    ("pop_tool", "Told", "CheckTold"),
    ("pop_tool", "Told", "ShowTold"),
    ("pop_tool", "ShownText", "ShowTells"),
    ("pop_tool", "Headline", "StableSays"),
    ("pop_tool", "Runs", "IsLastLine"),
    ("pop_tool", "Runs", "IsAllowedRun"),
    ("theory_goals", "StablyRight", "IsStablyRight"),
    ("pop_checker", "Sound", "IsRight"),
    ("pop_checker", "Changes", "ChangesAtMost"),
    ("theory_fair", "StablyComputes", "StablyComputes"),
    ("theory_random", "ComputesAlmostSurely", "SettlesAlmostSurely"),
    ("theory_random", "ComputesAlmostSurely", "SettlesInCubicTime"),
)
PROOFS = frozenset({"ValidProof", "ValidStableProof", "IsPartFile", "IsStableProofWithin"})
BOUNDS = frozenset({"ComputesAlmostSurely", "ComputesInCubicTime", "ChangesAtMost", "AreTameEach"})
COMPILED = frozenset({"net_with", "built_bound", "IsWritable", "bundle_line"})
RIGHT = frozenset({"IsStablyRight", "ComputesInCubicTime"})
WORDS = frozenset({"meaning_of"})
REASONS = frozenset({"refusal_text", "rejected_text"})
WIDTH = 118  # of a document's lines
ANSWERED = ("pop_tool", "Outcome", "IsAnswered")
TOP_CALL = "run_tool"
HEAD = ("pop_tool", "Headline", "Headline")
# each names the next: from what `run_tool` ensures down to the fields that a list begins with
WAY = (("pop_tool", "Call", "IsCall"), ("pop_tool", "Headline", "IsHeadline"), HEAD)
STREAMS = (Path("crates/pop_io/src/outside.rt"), ("Source", "Sink"))
EDGE = (Path("crates/pop_main/src/main.rt"), Path("crates/pop_io/src/standard.rt"))


@dataclass
class Clause:
    """A clause of a public contract."""

    call: str
    name: str
    says: str
    file: str
    line: int
    rests: set[Key]


def public_names(crate: Path) -> set[str]:
    """The names that a crate's head hands on."""
    text = (crate / "src/lib.rt").read_text()
    listed = re.findall(r"pub use [\w:]+::(?:\{([^}]*)\}|(\w+));", text)
    return {name.strip() for many, one in listed for name in (many or one).split(",") if name.strip()}


def contract(lines: list[str], at: int) -> Iterator[tuple[str, str, str, int]]:
    """The clauses behind a function's head: name, text, comment, line."""
    note: list[str] = []
    while at < len(lines) and not re.match(r"^ *\{", lines[at]) and not lines[at].rstrip().endswith((" {", ";")):
        line = lines[at]
        found = CLAUSE.match(line)
        if line.strip().startswith("// "):
            note.append(line.strip()[3:])
        elif line.strip() and not found:
            note = []
        if found:
            start, text = at, line[found.end() :]
            while text.count("{") + 1 > text.count("}"):
                at += 1
                text += " " + lines[at].strip()
            yield found[1] or "", text.rstrip(" }"), " ".join(note), start + 1
            note = []
        at += 1


class Told:
    """What rows say: a comment is told once, and a clause without one is shown as it stands."""

    def __init__(self, rests: Rests) -> None:
        self.rests = rests
        self.comments: set[str] = set()
        self.records: set[Key] = set()

    def of(self, statement: str, comment: str, key: Key | None) -> str:
        """The clause's own comment, or the statement, with what its definition says where that is new."""
        if comment:
            return comment
        about = self.rests.known[key].comment if key in self.rests.known else ""
        if not about or about in self.comments:
            return code(statement)
        self.comments.add(about)
        return f"{code(statement)}: {about}"

    def fields(self, call: str, key: Key | None) -> Iterator[Clause]:
        """Where a clause is a record of this repository, its fields are clauses too: they stand at the first such
        clause."""
        if key not in self.rests.known or not self.rests.known[key].is_record or key in self.records:
            return
        self.records.add(key)
        record = self.rests.known[key]
        for part in record.fields():
            says = self.of(part.statement, part.comment, None)
            yield Clause(call, f"{record.name}.{part.name}", says, record.file, part.line, set())


def clauses_of(crate: Path, told: Told) -> Iterator[Clause]:
    """The clauses of a crate's public calls."""
    public = public_names(crate)
    for path in sorted((crate / "src").glob("*.rt")):
        lines = path.read_text().splitlines()
        uses = imports(lines)
        owner = ""
        for at, line in enumerate(lines):
            if line.startswith(("impl", "pub trait")):
                owner = (
                    re.sub(r"<.*?>", "", line.removeprefix("impl").split("{")[0])
                    .split(" for ")[-1]
                    .split()[-1]
                    .rstrip(" {")
                )
            elif line.startswith("}"):
                owner = ""
            found = FUNCTION.match(line)
            if not found or (owner or found[2]) not in public or bool(found[1]) != bool(owner):
                continue
            call = f"{owner}::{found[2]}" if owner else found[2]
            for name, text, note, number in contract(lines, at + 1):
                head = re.match(r"\(?([^\s(){}]+)", text)
                key = uses.get(head[1]) if head else None
                says = told.of(text, note, key)
                yield Clause(call, name, says, str(path), number, told.rests.beneath(set(names_in(text, uses))))
                yield from told.fields(call, key)


def crate_order() -> list[str]:
    """The crates, from the top down."""
    listed = [line.split(":")[0].strip() for line in Path("crates.txt").read_text().splitlines() if ":" in line]
    return [
        name
        for name in reversed(listed)
        if (CRATES / name / "src/lib.rt").exists() and name not in NO_PART_OF_THE_PROGRAM
    ]


def fields_of(names: tuple[str, ...], rests: Rests) -> list[Field]:
    """The fields of `Headline` with these names. One that isn't there ends the script."""
    found = {part.name: part for part in rests.known[HEAD].fields()}
    if lacking := [name for name in names if name not in found]:
        sys.exit(f"tests/theorems.py: `Headline` has no field {lacking}")
    return [found[name] for name in names]


def named_by(names: tuple[str, ...], rests: Rests) -> set[Key]:
    """The definitions that these fields of `Headline` name."""
    head = rests.known[HEAD]
    named = (names_in(part.statement, head.uses, (head.crate, head.module)) for part in fields_of(names, rests))
    return {key for keys in named for key in keys if key in rests.known}


def broken_way(promised: set[Key], rests: Rests) -> str | None:
    """Where the way from the call to `Headline` stops: the call doesn't ensure its first step, or a step doesn't name
    the next."""
    if WAY[0] not in promised:
        return f"`{TOP_CALL}` does not ensure `{WAY[0][2]}`"
    for above, below in zip(WAY, WAY[1:]):
        if below not in rests.direct[above]:
            return f"`{above[2]}` does not name `{below[2]}`"
    return None


def rust_block(path: Path, head: str) -> int:
    """The lines of a Rust item from its head to its closing brace, without documentation and blank ones."""
    lines = path.read_text().splitlines()
    start = lines.index(head)
    end = next(at for at in range(start, len(lines)) if lines[at] == "}")
    return sum(1 for line in lines[start : end + 1] if line.strip() and not line.strip().startswith("///"))


def wrapped(text: str) -> str:
    return textwrap.fill(" ".join(text.split()), WIDTH, break_on_hyphens=False)


def way_down(promised: set[Key], rests: Rests) -> list[str]:
    """The steps from the call's contract to the fields of `Headline`, with which every list begins."""
    if stop := broken_way(promised, rests):
        sys.exit(f"tests/theorems.py: {stop}")
    path, traits = STREAMS
    told = f"""`{TOP_CALL}` ensures `{WAY[0][2]}`, and `{WAY[1][2]}` is a part of it. It speaks of a source that tells what
        it has left, and of a sink that tells what it holds. Then `Headline` holds of the words, of these bytes, and of
        the text that the sink gained. Each list begins with some fields of `Headline`, and names them. So these lines
        come before each list, once:"""
    out = ["## From the call to each list", "", wrapped(told), "", "| File | Lines | Definitions |", "|---|---|---|"]
    lines = sum(rust_block(path, f"pub trait {name} {{") for name in traits)
    out.append(f"| {path} | {lines} | {listed(traits)} |")
    out += [f"| {rests.known[key].file} | {len(rests.known[key].text)} | `{key[2]}` |" for key in WAY[:-1]]
    return [*out, ""]


def edge() -> list[str]:
    """What stands between the call and the operating system, and what no clause says of it."""
    told = """The call is proved of any source and any sink. The program hands it the standard streams, and no contract
        of the toolchain tells their content. So no clause says that the words are those of the command line, or that
        the exit status is the call's. None says that the source gives the bytes of standard input, that the sink
        writes the text and nothing else, or that `main` writes no line of its own. Read these files;
        `tests/program.py` tries them."""
    out = ["## To believe the edge", "", wrapped(told), "", "| File | Lines |", "|---|---|"]
    for path in EDGE:
        lines = [line.strip() for line in path.read_text().splitlines()]
        out.append(f"| {path} | {sum(1 for line in lines if line and not line.startswith('//'))} |")
    return [*out, ""]


def reading_list(
    title: str,
    told: str,
    keys: set[Key],
    rests: Rests,
    but: frozenset[str] = frozenset(),
    above: frozenset[Key] = frozenset(),
) -> list[str]:
    """The files in which the definitions stand, lowest crate first, with the lines that count. Each name that a listed
    definition uses has to be listed, to stand above, or to be left out by name. And the list has to miss each of its
    definitions."""
    if lacking := rests.unlisted(keys, but, above):
        sys.exit(f"tests/theorems.py: '{title}' lacks {sorted(lacking)}")
    used = {below for key in keys for below in rests.direct[key]}
    if unseen := {key for key in keys & used if not rests.unlisted(keys - {key}, but, above)}:
        sys.exit(f"tests/theorems.py: '{title}' could lose {sorted(unseen)}")
    order = {name: at for at, name in enumerate(reversed(crate_order()))}
    files: dict[tuple[int, str], list[Definition]] = {}
    for key in keys:
        definition = rests.known[key]
        files.setdefault((order.get(definition.crate, -1), definition.file), []).append(definition)
    counted = (
        f"{rests.lines(keys)} lines in {len(files)} files, and {rests.rust_lines(keys)} of Rust types and limits that"
        " they name:"
    )
    out = [f"## {title}", "", told, "", counted, "", "| File | Lines | Definitions |", "|---|---|---|"]
    for (_, file), definitions in sorted(files.items()):
        names = ", ".join(f"`{d.name}`" for d in sorted(definitions, key=lambda d: d.line))
        out.append(f"| {file} | {sum(len(d.text) for d in definitions)} | {names} |")
    return [*out, ""]


def headline(rests: Rests) -> list[str]:
    """The records of the headline, and those that its part on `check` cites: each field, and how much it rests on."""
    out = ["## The headline", "", "| Definition | Field | Says | Where | Lines beneath |", "|---|---|---|---|---|"]
    for key in [*(("pop_tool", "Headline", name) for name in HEADLINE), *BELOW_CHECK]:
        record = rests.known[key]
        where = record.file.removeprefix("crates/")
        out.append(
            f"| `{record.name}` |  | {cell(record.comment)} | {where}:{record.line} |"
            f" {rests.lines(rests.beneath([key]))} |"
        )
        for part in record.fields():
            if not part.comment and DATA.fullmatch(part.statement):
                continue
            roots = names_in(part.statement, record.uses, (record.crate, record.module))
            beneath = rests.lines(rests.beneath(roots))
            says = cell(part.comment or code(part.statement))
            out.append(f"| | `{part.name}` | {says} | {where}:{part.line} | {beneath or ''} |")
    return [*out, ""]


def called_above(name: str) -> bool:
    """Whether a command's crate or one above it calls this function."""
    sources = (path for crate in TOP_CRATES for path in (CRATES / crate / "src").glob("*.rt"))
    return any(re.search(rf"\b{name}(?:::<[^>]*>)?\(", path.read_text()) for path in sources)


def promises(clauses: dict[str, list[Clause]]) -> list[str]:
    """Which call carries which promise, and where it stands. A call that isn't there ends the script."""
    places = {
        row.call: f"{row.file.removeprefix('crates/')}:{row.line}"
        for rows in clauses.values()
        for row in reversed(rows)
    }
    told = "A call with a star is for other callers of the library: the program doesn't make it."
    out = ["## Which contract carries which promise", "", told, "", "| Promise | Contract | Where |", "|---|---|---|"]
    for promise, listed in PROMISES:
        calls = listed.split(", ")
        for call in calls:
            if call not in places:
                sys.exit(f"tests/theorems.py: no public call {call}, which carries a promise")
            if call in LIBRARY_ALONE and called_above(call):
                sys.exit(f"tests/theorems.py: the program makes the call {call}, which has a star")
        shown = (f"`{call}`{' *' if call in LIBRARY_ALONE else ''}" for call in calls)
        out.append(f"| {promise} | {', '.join(shown)} | {', '.join(places[call] for call in calls)} |")
    return [*out, ""]


def listed(names: Iterable[str]) -> str:
    return ", ".join(code(name) for name in names)


def code(statement: str) -> str:
    return f"`{statement}`"


def cell(text: str) -> str:
    return text.replace("|", "\\|")


INTRODUCTION = """\
# Theorems

Every clause that a public call promises: the headline first, then crate by crate downwards. Each row has what the
clause says: its comment, or the clause with the comment of its definition. Then come its place, and how many lines
of this repository's definitions it rests on. `tests/theorems.py --write` writes this file.

Before that come the trusted definitions. `tests/theorems.py` stops if a listed definition uses one that isn't
listed, or if no way leads to it from the call. `certified` is printed exactly for valid proofs, and a valid proof gives
that the net computes the predicate. If you ask only what `certified` tells of a protocol, you need not read what a
valid proof is. [The model](model.md) says the definitions in words, and [Reading](reading.md) how to read them. JSON's
values are those of the kit's `serde_json` and `json`, some 370 lines. Lists, texts and numbers are those of its std.
Neither is in a list. No list has the words of a command line (`meaning_of`): `check_is_meant` says that the word
`check` alone means the command.
"""


@dataclass
class Topic:
    """A list of what one has to believe: which fields of `Headline` it begins with, and what it leaves out by name."""

    title: str
    told: str
    fields: tuple[str, ...]
    but: frozenset[str]
    # the list stands on no other one, but for the lines that come before each
    alone: bool = False


TOPICS = (
    Topic(
        "To believe `certified`",
        """The printed line, the status and the exit status (`code_of`), the file of a bundle, and what it means that
        its net computes the predicate, for fair executions too. Left out are the bounds of the next list. Left out of all
        lists are what a valid proof is and how its part of the file is written (`ValidProof`, `ValidStableProof`,
        `IsPartFile`, `IsStableProofWithin`). So is how a refusal and a rejection are worded (`refusal_text`,
        `rejected_text`): these begin with `fault: ` and `rejected `.""",
        ("check", "only", "check_told"),
        PROOFS | BOUNDS,
    ),
    Topic(
        "To believe the bounds too",
        """What more `certified` says of meetings of uniformly random pairs, and of runs by a proof with one layer for
        each leaf.""",
        ("check", "only"),
        PROOFS,
    ),
    Topic(
        "To believe `stable`",
        """What is printed for a bundle in which some leaf has goals, and what it means that a net is stably right.""",
        ("stable", "stable_only"),
        PROOFS,
    ),
    Topic(
        "To believe `show`",
        "The lines that are printed below `certified` or `stable`: the net, the predicate, the layers and the goals.",
        ("show", "shown", "show_told"),
        PROOFS,
    ),
    Topic(
        "To believe what `show` prints",
        """Which net is right for which predicate, if you have the text and not the file. Neither JSON nor the grammar of
        predicates is in this list. The text has the lines of `check`, and behind them those of a net, a predicate and a
        proof. No other net or predicate has these lines. Two proofs with these lines differ at most in their trees, and
        in which of several equal moves a layer lists. A net that is certified computes its predicate (`Computes`). Left
        out is what `stable` and `tame` say (`IsStablyRight`, `ComputesInCubicTime`): the lists above have it.""",
        ("show_tells",),
        PROOFS | RIGHT,
        alone=True,
    ),
    Topic(
        "To believe a run",
        "The printed journal, the crowd at its end and the last line, of `run` and of `watch`.",
        ("run", "watch", "run_told", "watch_told"),
        PROOFS,
    ),
    Topic(
        "To believe `replay`",
        "For which journals `holds` is printed, and with which number.",
        ("replay", "replay_watched", "replay_told", "replay_watched_told"),
        PROOFS,
    ),
    Topic(
        "To believe `settle`",
        "The printed takes, the crowd at their end and the last line.",
        ("settle", "settle_told"),
        PROOFS,
    ),
    Topic(
        "To believe `compile`",
        """The printed bundle is of the predicate that was asked for, and its proof is valid. Left out are which net it
        is, which number the bound is, and how it is written (`net_with`, `built_bound`, `IsWritable`, `bundle_line`):
        the line is read back to this bundle.""",
        ("compile", "flocks", "succinct", "compile_told", "flocks_told", "succinct_told"),
        PROOFS | COMPILED,
    ),
)


def topic_lists(rests: Rests) -> Iterator[str]:
    """The lists of all topics, each without what stands in those above it."""
    first = {ANSWERED, *WAY}
    above = set(first)
    for topic in TOPICS:
        but = topic.but | WORDS | REASONS
        keys = rests.beneath(named_by(topic.fields, rests), but)
        told = f"{topic.told} It begins with {listed(topic.fields)} of `Headline`"
        if topic.alone:
            told += ", and needs no other list."
            yield from reading_list(topic.title, wrapped(told), keys - first, rests, but, frozenset(first))
            continue
        told += ", and stands on the lists above." if above & keys else "."
        yield from reading_list(topic.title, wrapped(told), keys - above, rests, but, frozenset(above))
        above |= keys


def document() -> str:
    rests = Rests(all_definitions())
    told = Told(rests)
    clauses = {crate: list(clauses_of(CRATES / crate, told)) for crate in crate_order()}
    promised = {key for row in clauses["pop_tool"] if row.call == TOP_CALL for key in row.rests}
    out = [
        *INTRODUCTION.splitlines(),
        "",
        *way_down(promised, rests),
        *topic_lists(rests),
        *reading_list(
            "To believe the whole answer",
            "What a call promises, all commands and refusals among it.",
            rests.beneath(WAY[:1]),
            rests,
        ),
        *edge(),
    ]
    out += headline(rests) + promises(clauses)
    for crate, rows in clauses.items():
        if not rows:
            continue
        out += [f"## `{crate}`", "", "| Call | Clause | Says | Where | Lines beneath |", "|---|---|---|---|---|"]
        for row in rows:
            beneath = str(rests.lines(row.rests)) if row.rests else ""
            where = f"{row.file.removeprefix(f'crates/{crate}/')}:{row.line}"
            clause = f"`{row.name}`" if row.name else ""
            out.append(f"| `{row.call}` | {clause} | {cell(row.says)} | {where} | {beneath} |")
        out.append("")
    return "\n".join(out)


def main() -> int:
    made = document()
    if "--write" in sys.argv[1:]:
        DOCUMENT.write_text(made)
        return 0
    if not DOCUMENT.exists() or DOCUMENT.read_text() != made:
        print(f"{DOCUMENT} is not what the sources say: tests/theorems.py --write")
        return 1
    return 0


if __name__ == "__main__":
    sys.exit(main())
