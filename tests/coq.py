#!/usr/bin/python3
"""Holds Coq against the proved program: every bundle of examples/, and changed ones.

    tests/coq.py [PROGRAM] [CHANGES]

Coq accepts the exported file of each valid bundle, without an axiom, and of none that the program rejects. It accepts no
file that claims tame layers, or a net without a choice of moves, where that isn't so. The checker that Coq extracts says
what the program says of each bundle of examples/ and of CHANGES changed ones, 1,000 if no number is given, the word
`tame` below it too. Of as many bundles with a byte or two changed it reads those that the program reads, but that sizes
and names are the program's rules alone. The library is built once for its sources, in out/coq.
"""
from __future__ import annotations

import json
import os
import random
import re
import subprocess
import sys
import tempfile
from collections import Counter
from concurrent.futures import ThreadPoolExecutor
from dataclasses import replace
from pathlib import Path
from typing import Any

TOP = Path(__file__).resolve().parents[1]
sys.path.insert(0, str(TOP))

from hurleyoak.engine.places import BUILT  # noqa: E402
from hurleyoak.engine.claims import FURTHER, claimed  # noqa: E402
from hurleyoak.proof.bundles import Bundle, bundle_of  # noqa: E402
from hurleyoak.protocol.nets import Leaf, Net  # noqa: E402
from hurleyoak.text.coqfile import Said, coq_file  # noqa: E402
from tests.workbench.changes import changed  # noqa: E402

BUILD = TOP / "proofs" / "coq" / "build"
RECHECK = TOP / "bin" / "recheck"
VALID, REJECTED = ("*/bundle", "accepted/*", "stable/*"), ("rejected/*",)
CLOSED = "Closed under the global context"
SEED, CHANGES = 83, 1_000
SECONDS = 600  # of one run of Coq or of a checker
LATE, NO_BUNDLE = "unanswered", "no bundle"
PROGRAMS_RULES = ("range", "name")  # a fault's last word where the file is JSON of the right kind
PARTS = [
    *(bytes([b]) for b in b'0123456789-+.eE"\\/,:[]{} \t\r\nutfalsn\x00\x1f\x7f\x80\xff'),
    b"\xc3\xa9",
    b"\xed\xa0\x80",
]
PARTS += [b"\xf0\x9f\x98\x80", b"\\u0041", b"\\ud800", b"\\n", b"-0", b"1.0", b"null", b"true", b'"a":1,']
HOSTILE = ('"', "(*", "*)", '(*"', '"*)', "(", ")", "*", "\\", "(**)", "**", '""')


def paths(patterns: tuple[str, ...]) -> list[Path]:
    """The bundles of examples/ below these names."""
    return sorted(path for one in patterns for path in (TOP / "examples").glob(f"{one}.json"))


def said_of(bundle: Bundle) -> Said:
    """What a proof would show if it were valid; `tame` by the second checker."""
    run = subprocess.run([RECHECK], input=bundle.line(), capture_output=True, text=True, check=False)
    word = "stable" if bundle.has_goals else "certified"
    return Said(word, sum(part.bound for part in bundle.proof), claimed(run.stdout).is_tame)


def printed_by_coq(library: str, text: str) -> str:
    """What `coqc` prints of a file, its faults below it."""
    with tempfile.TemporaryDirectory() as room:
        Path(room, "One.v").write_text(text, encoding="utf-8")
        words = ["coqc", "-q", "-Q", library, "Hurleyoak", "One.v"]
        run = subprocess.run(words, cwd=room, capture_output=True, text=True, timeout=SECONDS, check=False)
        return run.stdout + run.stderr


def hostile(bundle: Bundle) -> Bundle:
    """The bundle with names of states that would end a comment or a string."""
    leaves = tuple(
        Leaf(HOSTILE[: len(leaf.states)], leaf.moves, leaf.inputs, leaf.outputs, leaf.helpers)
        for leaf in bundle.net.leaves
    )
    net = Net(bundle.net.names, leaves, bundle.net.combine, bundle.net.format)
    return Bundle(net, bundle.pred, bundle.proof)


def files() -> list[tuple[str, str, bool]]:
    """Names and texts of exported files, and whether Coq accepts them."""
    out = []
    for patterns, is_valid in ((VALID, True), (REJECTED, False)):
        for path in paths(patterns):
            bundle = bundle_of(json.loads(path.read_text()))
            out.append((str(path.relative_to(TOP)), coq_file(bundle, str(path), said_of(bundle)), is_valid))
    majority = bundle_of(json.loads((TOP / "examples/majority/bundle.json").read_text()))
    odd, said = hostile(majority), said_of(majority)
    out.append(("hostile names", coq_file(odd, 'a "file" *) (* 中.json', said), True))
    out.append(("untamed layers", coq_file(majority, "x", replace(said, is_tame=True)), False))
    double = bundle_of(json.loads((TOP / "examples/accepted/two-moves.json").read_text()))
    text = coq_file(double, "x", said_of(double))
    out.append(("a choice of moves", text.replace("checked true false", "checked true true"), False))
    return out


def look_at_files(library: str) -> list[str]:
    """What differs of the exported files."""

    def fault(file: tuple[str, str, bool]) -> str | None:
        name, text, is_valid = file
        printed = printed_by_coq(library, text)
        is_accepted = CLOSED in printed and "Error" not in printed
        if is_accepted == is_valid and (is_valid or "eq_refl" in printed):
            return None
        return f"{name}: Coq {'accepts' if is_accepted else 'refuses'} it: {printed[-200:]}"

    with ThreadPoolExecutor(os.cpu_count()) as pool:
        return [found for found in pool.map(fault, files()) if found]


def printed(words: list[str], data: bytes) -> str:
    """What a checker prints of a bundle; of none that it doesn't answer in time."""
    try:
        run = subprocess.run(words, input=data, capture_output=True, timeout=SECONDS, check=False)
    except subprocess.TimeoutExpired:
        return LATE
    return run.stdout.decode(errors="replace")


def short(text: str) -> str:
    """The claim with the words below it, of a rejection its first word alone."""
    return ", ".join(text.split("\n")[:-1]) if claimed(text) else (text.split() or [LATE])[0]


def answers(text: str) -> list[str]:
    """What Coq's checker prints of files, one after the other, in the same form."""
    out: list[str] = []
    for line in text.splitlines():
        if line in FURTHER:
            out[-1] += f", {line}"
        else:
            out.append(line)
    return out


def line_of(value: Any) -> bytes:
    """A bundle's line."""
    return (json.dumps(value, separators=(",", ":")) + "\n").encode()


def told_by_both(program: str, checker: str, lines: list[bytes]) -> tuple[list[str], list[str]]:
    """What the program and Coq's checker print of files."""
    with ThreadPoolExecutor(os.cpu_count()) as pool:
        told = list(pool.map(lambda line: printed([program, "check"], line), lines))
    with tempfile.TemporaryDirectory() as room:
        files = [Path(room, f"{i}.json") for i in range(len(lines))]
        for file, line in zip(files, lines):
            file.write_bytes(line)
        run = subprocess.run([checker, *files], stdout=subprocess.PIPE, text=True, timeout=SECONDS, check=False)
    return told, answers(run.stdout)


def look_at_bundles(program: str, checker: str, values: list[Any]) -> tuple[Counter[str], list[str]]:
    """How often both said what of bundles, and those of which they differ."""
    tally, faults = Counter[str](), list[str]()
    lines = [line_of(value) for value in values]
    told, others = told_by_both(program, checker, lines)
    for said, by_coq, line in zip(map(short, told), others, lines, strict=True):
        # (sizes and names are the program's rules alone)
        word = "malformed" if said == "fault:" else re.sub(" [0-9]+", "", said)
        tally[word] += 1
        if word not in ("malformed", LATE) and said != by_coq:
            faults.append(f"the program says `{said}`, Coq's checker `{by_coq}`: {line.decode()[:400]}")
    return tally, faults


def look_at_changes(program: str, checker: str, changes: int) -> tuple[Counter[str], list[str]]:
    """The same of the bundles of examples/ and of changed ones."""
    rng = random.Random(SEED)
    values: list[Any] = [json.loads(path.read_text()) for path in paths(VALID + REJECTED)]
    made = [changed(rng.choice(values), rng.randrange(1 << 30)) for _ in range(changes)]
    return look_at_bundles(program, checker, values + made)


def retyped(line: bytes, rng: random.Random) -> bytes:
    """The file with a byte or two dropped, replaced or put in."""
    text = bytearray(line)
    for _ in range(rng.choice((1, 1, 2))):
        at, width = rng.randrange(len(text)), rng.randrange(2)
        text[at : at + width] = rng.choice([b"", *PARTS]) if width else rng.choice(PARTS)
    return bytes(text)


def look_at_texts(program: str, checker: str, changes: int) -> tuple[Counter[str], list[str]]:
    """How often both read a changed text, and those that one of them alone reads."""
    rng, tally, faults = random.Random(SEED), Counter[str](), list[str]()
    given = [line_of(json.loads(path.read_text())) for path in paths(VALID)]
    lines = [retyped(rng.choice(given), rng) for _ in range(changes)]
    told, others = told_by_both(program, checker, lines)
    for said, by_coq, line in zip(told, others, lines, strict=True):
        if said.split()[-1:] and said.split()[-1] in PROGRAMS_RULES:
            continue
        expected = NO_BUNDLE if said.startswith("fault:") else short(said)
        tally["no bundles" if expected == NO_BUNDLE else "read"] += 1
        if by_coq != expected:
            faults.append(f"the program says `{said.strip()}`, Coq's checker `{by_coq}`: {line!r}")
    return tally, faults


def counted(tally: Counter[str]) -> str:
    """How often what was said."""
    return ", ".join(f"{many:,} {word}" for word, many in sorted(tally.items()))


def main(words: list[str]) -> int:
    """Prints what was held against what, and what differs."""
    program = words[0] if words else os.environ.get("POP_MAIN", str(BUILT))
    changes = int(words[1]) if len(words) > 1 else CHANGES
    library = subprocess.run([BUILD], stdout=subprocess.PIPE, text=True, check=True).stdout.strip()
    faults = look_at_files(library)
    print(f"{len(files())} exported files by coqc")
    built = subprocess.run([BUILD, "--checker"], capture_output=True, text=True, check=False)
    if built.returncode:
        print(f"skipped {changes} changed bundles by Coq's checker: {built.stderr.strip()}")
    elif not os.access(program, os.X_OK):
        print(f"skipped {changes} changed bundles by Coq's checker: the program isn't built (bin/pop build)")
    else:
        tally, differ = look_at_changes(program, built.stdout.strip(), changes)
        print(f"{changes:,} changed bundles and those of examples/: {counted(tally)}")
        faults += differ
        tally, differ = look_at_texts(program, built.stdout.strip(), changes)
        print(f"{changes:,} changed texts: {counted(tally)}")
        faults += differ
    for fault in faults:
        print(f"DIFFERS {fault}")
    return 1 if faults else 0


if __name__ == "__main__":
    sys.exit(main(sys.argv[1:]))
