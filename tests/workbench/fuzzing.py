"""Changed files of the tests, odd words and closed streams for all commands: any answer will do, but a traceback.

Neither will a status that isn't one, nor a gigabyte. Half of the changes are mild: a name, a number or a line is
another, so that what is behind the first reader is tried too.

`python3 -m tests.workbench.fuzzing SEED COUNT FOLDER` tries so many cases in this process, whose streams go nowhere,
and writes what went wrong to FOLDER/found, a line of JSON for each.
"""
from __future__ import annotations

import json
import os
import random
import re
import resource
import signal
import sys
import traceback
from pathlib import Path
from typing import Any, Callable

TOP = Path(__file__).resolve().parents[2]
SECONDS = 60  # of a processor: a case that takes more is too slow
MEMORY = 1 << 20  # in KiB: a case for which the process has more is too large
STATUSES = range(10)
MILD = 0.5  # this part of the changes
WAIT = 300  # by the clock: a case that takes more is one that hangs
PIECES = (
    "\x00",
    "\x1b]0;x\x07",
    "\ud800",
    "²",
    "é",
    "\u202e",
    "$x_$",
    "&lt;",
    "%",
    "-",
    "1" * 5000,
    "-1",
    "1e5",
    "0x10",
    "NaN",
    "{",
    "}",
    "[",
    "]",
    '"',
    "\\",
    "\r\n",
    "\n",
    "#",
    "*",
    "?",
    "->",
    "+",
    "mod",
    "x",
    "A",
    "leaf L",
    "combine",
    "helpers 3*A",
    "inputs",
    "when true",
    "layer A: 1",
    "split",
    "lin",
    "residue 3 ?",
    "true",
    "false",
    "null",
    "[]",
    "{}",
    "1.5",
    "99999999999999999999",
    "(" * 200,
    "!" * 100,
    ", , ,",
    "..",
    "=",
    "x=1..9*2",
    "=>",
    "assume x >= 1",
    "family k in 1..2",
    "for i in 1..3 if i is 2",
    "[x{i} for i in 1..9]",
    "format 1",
    "{3/4}",
    "min(1, 2)",
)
OPTIONS: dict[str, tuple[str, ...]] = {
    "find": ("--seconds", "1", "--jobs", "1", "--small", "1"),
    "refute": ("--seconds", "1", "--agents", "3"),
    "simulate": ("--changes", "200"),
    "exact": ("--top", "3"),
    "sweep": ("--runs", "2", "--changes", "200"),
    "plot": ("--text",),
    "draw": ("--text",),
}
COMMANDS = (
    "net",
    "bundle",
    "text",
    "explain",
    "and",
    "or",
    "not",
    "find",
    "refute",
    "simulate",
    "exact",
    "sweep",
    "plot",
    "draw",
    "check",
    "run",
    "settle",
    "play",
    "eval",
    "compile",
    "replay",
    "help",
    "--tell",
    "",
)
WORDS = (
    "x=3",
    "y=2",
    "x=5",
    "x=²",
    "x=1..3*2",
    "--seed",
    "3",
    "--seed=3",
    "--sed",
    "--until",
    "agreed",
    "--predicate",
    "x >= y",
    "x < 1e5",
    "x % 3 = 1",
    "x = y mod 3",
    "-o",
    "--html",
    "--all",
    "--text",
    "--dot",
    "--by",
    "run",
    "--gather",
    "--list",
    "--start",
    "x=A",
    "0,1",
    "-",
    "",
    "--",
    "\udcff",
    "1" * 5000,
    "--help",
    "--agents",
    "5.5",
    "--csv",
    "--trace",
    "--write",
    "--anew",
    "--flocks",
    "--watched",
    "--turns",
    "5",
)


def seeds() -> list[str]:
    """The files of the examples."""
    files = sorted([*TOP.glob("examples/**/*.pop"), *TOP.glob("examples/**/*.json"), *TOP.glob("examples/**/*.txt")])
    return [path.read_text(errors="replace") for path in files if path.stat().st_size < 20_000]


def _dug(value: Any, rng: random.Random) -> Any:
    """A JSON value with one item changed."""
    if isinstance(value, dict) and value and rng.random() < 0.9:
        name = rng.choice(sorted(value))
        return (
            {**value, name: _dug(value[name], rng)}
            if rng.random() < 0.8
            else {k: v for k, v in value.items() if k != name}
        )
    if isinstance(value, list) and value and rng.random() < 0.9:
        at = rng.randrange(len(value))
        return [*value[:at], _dug(value[at], rng), *value[at + 1 :]]
    return rng.choice(
        [None, True, -1, 0, 3, 1.5, 1e999, 10**30, "x", "", [], {}, [[]], "A", "\ud800", "x\ny", "²", value]
    )


def changed(text: str, rng: random.Random) -> str:
    """A text with some changes."""
    if text.lstrip().startswith("{") and rng.random() < 0.5:
        try:
            first, _, rest = text.partition("\n")
            return json.dumps(_dug(json.loads(first), rng)) + "\n" + rest
        except ValueError:
            pass
    for _ in range(rng.randrange(4)):
        at, end = sorted(rng.randrange(len(text) + 1) for _ in range(2))
        kind = rng.randrange(4)
        if kind == 0:
            text = text[:at] + rng.choice(PIECES) + text[at:]
        elif kind == 1:
            text = text[:at] + text[min(end, at + 9) :]
        elif kind == 2:
            lines = text.split("\n")
            i, j = rng.randrange(len(lines)), rng.randrange(len(lines))
            lines[i] = lines[j] if rng.random() < 0.7 else lines[i] + rng.choice(PIECES)
            text = "\n".join(lines)
        else:
            text = text[:at] + rng.choice(PIECES) + text[min(end, at + 3) :]
    return text


_NAME = re.compile(r"[A-Za-z_][A-Za-z0-9_]*")
_WHOLE = re.compile(r"(?<![A-Za-z0-9_])-?[0-9]{1,9}(?![A-Za-z0-9_])")


def _one(pattern: re.Pattern[str], text: str, rng: random.Random, made: Callable[[str], str]) -> str:
    """A text with one match of a pattern made another."""
    found = list(pattern.finditer(text))
    if not found:
        return text
    at = rng.choice(found)
    return text[: at.start()] + made(at.group()) + text[at.end() :]


def mild(text: str, rng: random.Random) -> str:
    """A text of which one or two names, numbers, signs or lines are others."""
    for _ in range(rng.choice([0, 1, 1, 2])):
        kind, names, lines = rng.randrange(5), _NAME.findall(text) or ["x"], text.split("\n")
        i = rng.randrange(len(lines))
        if kind == 0:
            text = _one(_NAME, text, rng, lambda _: str(rng.choice(names)))
        elif kind == 1:
            text = _one(_WHOLE, text, rng, lambda digits: str(int(digits) + rng.choice([-1, 1, 2, 1000])))
        elif kind == 2:
            text = "\n".join([*lines[:i], *lines[i + 1 :]])
        elif kind == 3:
            text = "\n".join([*lines[:i], lines[i], *lines[i:]])
        else:
            j = rng.randrange(len(lines))
            lines[i], lines[j] = lines[j], lines[i]
            text = "\n".join(lines)
    return text


def words_of(rng: random.Random, folder: Path, texts: list[str]) -> list[str]:
    """The words of a case, and the files that they name."""
    command = rng.choice(COMMANDS)
    files = []
    for number in range(2):
        path = folder / f"case{number}.{rng.choice(['pop', 'json'])}"
        change = mild if rng.random() < MILD else changed
        path.write_bytes(
            change(rng.choice(texts), rng).encode("utf-8", "surrogatepass" if rng.random() < 0.2 else "replace")
        )
        files.append(str(path))
    words = [command, *(files if command in ("and", "or") else files[:1]), *OPTIONS.get(command, ())]
    words += [rng.choice(WORDS) for _ in range(rng.randrange(3))]
    if command in ("eval", "compile") and rng.random() < 0.5:
        words[1] = changed(
            rng.choice(["x >= y", "2x + 3*y < 5 && x % 3 = 1", "not (x = y (mod 4)) or 1 < x < 5"]), rng
        )
    if command in ("simulate", "exact", "sweep", "run", "settle"):
        words.append("x=3")
    if rng.random() < 0.1:
        rng.shuffle(words)
    # (what a word has that is no UTF-8 comes as these halves alone)
    return [word.replace("\x00", "").replace("\ud800", "\udcff") for word in words if word or rng.random() < 0.5]


class Slow(BaseException):
    """A case takes too long."""


def _slow(_number: int, _frame: Any) -> None:
    raise Slow


def _watched() -> None:
    """From here on a case ends by the processor's time and, where it waits, by the clock."""
    signal.signal(signal.SIGALRM, _slow)
    signal.signal(signal.SIGPROF, _slow)
    signal.alarm(WAIT)
    signal.setitimer(signal.ITIMER_PROF, SECONDS)


def _unwatched() -> None:
    signal.alarm(0)
    signal.setitimer(signal.ITIMER_PROF, 0)


def tried(words: list[str], closed: int | None) -> str:
    """Tries one case; what went wrong, or nothing."""
    from hurleyoak.cli.commands import main
    from hurleyoak.streams import open_streams

    null = os.open(os.devnull, os.O_RDWR)
    for number in (0, 1, 2):
        os.dup2(null, number)
    os.close(null)
    if closed is not None:
        os.close(closed)
        if closed < 2:
            # (standard error is where Python's own last words would go)
            setattr(sys, ("stdin", "stdout")[closed], None)
    _watched()
    try:
        open_streams()
        status = main(words)
        sys.stdout.flush()
        if status not in STATUSES:
            return f"no status: {status}"
    except (SystemExit, MemoryError, RecursionError, OSError):
        return ""
    except Slow:
        return "slow: " + "".join(traceback.format_exc().splitlines(True)[-8:])
    except BaseException:  # noqa: B036  what is looked for
        return traceback.format_exc()
    finally:
        _unwatched()
    most = resource.getrusage(resource.RUSAGE_SELF).ru_maxrss
    return f"large: {most} KiB" if most > MEMORY else ""


def run(seed: int, count: int, folder: Path) -> None:
    """Tries so many cases."""
    os.chdir(folder)
    rng = random.Random(seed)
    texts = seeds()
    with open(folder / "found", "w", encoding="utf-8") as out:
        # (the file that is written is none of the three streams)
        kept = os.fdopen(os.dup(out.fileno()), "w", encoding="utf-8")
        for case in range(count):
            words = words_of(rng, folder, texts)
            told = tried(words, rng.choice([0, 1, 2]) if rng.random() < 0.1 else None)
            if told:
                inputs = {path.name: path.read_text(errors="replace")[:20_000] for path in folder.glob("case*")}
                kept.write(json.dumps({"case": case, "words": words, "told": told, "files": inputs}) + "\n")
                kept.flush()
            for path in folder.glob("case*"):
                path.unlink()
        kept.write(json.dumps({"done": count}) + "\n")
        kept.flush()


if __name__ == "__main__":
    run(int(sys.argv[1]), int(sys.argv[2]), Path(sys.argv[3]))
