"""`pop find [FILE] [PREDICATE]`: a bundle that the program has certified, or a crowd that the protocol gets wrong, or
neither."""
from __future__ import annotations

import os
import sys
import time
from codecs import BOM_UTF8
from itertools import count
from pathlib import Path
from typing import TYPE_CHECKING, Callable, TextIO

from ...engine import program
from ...faults import InputFault
from ...text.files import ASSUMES, STANDARD_INPUT, read_text
from ...text.networks import ENDING
from ...text.loaded import Loaded, LoadedBundle, strict_bundle
from ...proof.bundles import Bundle
from ...saying import say
from ...writing import write_text
from . import warn
from ..usage import UsageFault
from ..table.reading import Given
from .inputs import WITH, loaded_of, members_of, named

if TYPE_CHECKING:
    from ...search.finding import Outcome
    from ...search.flaws import Flaw

NOT_FOUND = program.UNDECIDED


def run(given: Given) -> int:
    """Prints the bundle, or writes it; all else goes to standard error. A family without `--with` gets a table."""
    text = read_text(given.path)
    if not given.has(WITH) and (every := members_of(text, named(given.path))):
        from .family import find_all

        return find_all(given, every, text)
    loaded = loaded_of(given, text)
    warn([ASSUMES] if loaded.assumed else [], loaded.name)
    original = savable(given, text) if given.has("--save") else ""
    from ...search.finding import find
    from ...search.processes import processors

    end = time.monotonic() + given.number("--seconds")

    def found_of(one: Loaded, is_anew: bool = False) -> "Outcome":
        left = end - time.monotonic()
        jobs = given.whole("--jobs") or processors()
        return find(one, left, given.number("--small"), jobs, is_anew, tame=given.has("--tame"))

    if given.has("--mend") and has_whole_proof(loaded):
        return mend(given, loaded, found_of, original)
    found = found_of(loaded, given.has("--anew"))
    if found.flaw is not None:
        return show_flaw(loaded, found.flaw, given.text("--write"), sys.stderr)
    if found.left_out is not None:
        return tell_left_out(loaded, found.left_out)
    bundle = found.bundle
    if bundle is None:
        from ...show.telling import failure_told

        print("\n".join(["not found: " + failure_told(loaded, found.failures[0]), *found.so_far()]), file=sys.stderr)
        return NOT_FOUND
    from ...show.soon import soon_told

    answer = program.check(bundle.line())
    print(answer.text, end="", file=sys.stderr)
    if answer.status != program.DONE:
        print(
            (
                "pop: the program rejects this proof, so it isn't shown; what is written in the file was kept"
                " (`--mend` looks for what is refused, `--anew` for all)"
            ),
            file=sys.stderr,
        )
        return answer.status
    print("\n".join([*found.told(), *soon_told(bundle, answer.claim)]), file=sys.stderr)
    return put_bundle(given, loaded, bundle, original)


def has_whole_proof(loaded: Loaded) -> bool:
    """Whether an input has a proof in which nothing is open."""
    if isinstance(loaded, LoadedBundle):
        return True
    return loaded.drafts is not None and not any(draft.holes or draft.notes for draft in loaded.drafts)


def mend(given: Given, loaded: Loaded, find: Callable[[Loaded], "Outcome"], original: str) -> int:
    """Puts `?` in the place of what the program refuses, and looks for that alone."""
    from ...search.mending import mended

    wrong: list["Outcome"] = []

    def found(one: Loaded) -> Bundle | None:
        made = find(one)
        if made.is_flawed:
            wrong.append(made)
        return made.bundle

    bundle = strict_bundle(loaded)
    bundle, answer = mended(loaded, bundle, program.check(bundle.line()), found)
    print(answer.text, end="", file=sys.stderr)
    if answer.status == program.DONE:
        from ...show.soon import soon_told

        print("".join(f"{told}\n" for told in soon_told(bundle, answer.claim)), end="", file=sys.stderr)
        return put_bundle(given, loaded, bundle, original)
    for made in wrong:
        if made.flaw is not None:
            return show_flaw(loaded, made.flaw, given.text("--write"), sys.stderr)
    for made in wrong:
        if made.left_out is not None:
            return tell_left_out(loaded, made.left_out)
    print("pop: no proof was found in the place of what is refused; `--anew` looks for all of it", file=sys.stderr)
    return answer.status


def savable(given: Given, text: str) -> str:
    """The text of the file that a proof is saved into; UsageFault where there is none."""
    if not given.words or given.path == STANDARD_INPUT:
        raise UsageFault("`--save` puts the proof into the `.pop` file that is named")
    kind = "JSON" if text.lstrip()[:1] in ("{", "[") else "a reaction network" if given.path.endswith(ENDING) else ""
    if kind:
        raise UsageFault(
            f"`--save` puts the proof into a `.pop` file, and this one is {kind}: `-o FILE` writes a file of its own"
        )
    return text


def save(path: str, original: str, bundle: Bundle) -> int:
    """Puts the proof into the file whose text was read; where it was changed since, into a new one beside it, with the
    status of a file that wasn't written."""
    from ...text.saving import with_proof

    made = with_proof(original, bundle)
    if is_still(path, original):
        write_text(path, mark_of(path) + made)
        say([f"the proof is saved in {path}"])
        return program.DONE
    beside = free_name(path)
    write_text(beside, made)
    say(
        [
            f"{path} was changed while the proof was looked for, and stays as it is: the text that was read, with the"
            f" proof, is in {beside}"
        ]
    )
    return program.WRITE_FAULT


def is_still(path: str, original: str) -> bool:
    """Whether a file still has the text that was read."""
    try:
        return read_text(path) == original
    except InputFault:
        return False


def mark_of(path: str) -> str:
    """The mark of UTF-8 with which some editors begin a file, where this one has it."""
    with open(path, "rb") as file:
        return "\ufeff" if file.read(len(BOM_UTF8)) == BOM_UTF8 else ""


def free_name(path: str) -> str:
    """A name beside a file that no file has."""
    base = Path(path)
    for number in count(1):
        name = base.with_name(f"{base.stem}.found{'' if number == 1 else number}{base.suffix}")
        if not os.path.lexists(name):
            return str(name)
    raise AssertionError


def put_bundle(given: Given, loaded: Loaded, bundle: Bundle, original: str) -> int:
    """Saves the proof, writes the bundle or its text, or prints it."""
    status = save(given.path, original, bundle) if original else program.DONE
    path = given.text("--output")
    from ...text.writer import is_text_file, loaded_text

    is_text = given.has("--text") or is_text_file(path or "")
    made = loaded_text(loaded, bundle) if is_text else bundle.line() + "\n"
    if path is not None:
        write_text(path, made)
    elif not original and sys.stdout.isatty() and not given.has("--text"):
        print(
            f"a certified bundle of {len(made):,} bytes: `-o FILE` writes it, `--text` shows it as a `.pop` file,"
            " `--save` puts the proof into yours"
        )
    elif not original:
        print(made, end="")
    return status


def tell_left_out(loaded: Loaded, flaw: "Flaw") -> int:
    """Says that the protocol is wrong only where the file leaves inputs out; status 4."""
    from ...show.telling import left_out_told

    print("not found: " + left_out_told(loaded, flaw), file=sys.stderr)
    return NOT_FOUND


def show_flaw(loaded: Loaded, flaw: "Flaw", write: str | None, stream: TextIO | None = None) -> int:
    """Plays a counterexample by the program, and tells it; status 3."""
    from ...search.playing import play
    from ...show.telling import flaw_told
    from ...protocol.predicates import value_at

    assert loaded.predicate is not None
    tree = loaded.whole_tree()
    played = play(loaded.net, flaw, value_at(tree, flaw.counts)) if flaw.by_meetings else None
    if played is not None and not played.is_as_told:
        raise InputFault(
            "pop: the program plays this counterexample to another end; it isn't shown:\n" + "\n".join(played.printed)
        )
    if write and played is not None:
        write_text(write, played.text)
    print(flaw_told(loaded.net, tree, loaded.predicate, flaw, played), file=stream or sys.stdout)
    return program.REJECTED
