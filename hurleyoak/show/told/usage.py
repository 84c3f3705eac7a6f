"""Sentences on `fault: usage W WHY`, from the words alone."""
from __future__ import annotations

import os
from typing import Sequence

from ...engine.request import FLAGS, NUMBERED, OUTPUT, PROGRAM_WORDS, USAGE
from .quoting import meant
from ...wholes import is_whole, whole_of

LIMITS = {
    "--workers": "workers are 1 to 64, for `watch` 1 to 63",
    "--shards": "shards are 1 to 1,024",
    "--turns": "turns are 0 to 1,000,000 each, and at most 2,000,000 in all",
    "--seed": "a seed is 0 to 9,223,372,036,854,775,807",
    "demo": "demo cases are 0 to 9,999",
}
WORKERS_USUAL, TURNS_USUAL = 1, 10_000


def usage_told(words: Sequence[str], at: int, why: str, others: Sequence[str]) -> list[str]:
    """What is wrong with the word with this number; `others` are the words of the workbench."""
    command = words[0] if words else ""
    if why == "missing":
        return [_missing(words)]
    if why == "product":
        return [_product(words)]
    word = words[at] if at < len(words) else ""
    if at == 0:
        return [
            f"unknown word `{word}`{meant(word, [*PROGRAM_WORDS, *others, 'help'])}",
            "`pop help` has the commands",
        ]
    if why == "twice":
        return [f"`{word}` is given twice; give each option at most once"]
    if why == "value":
        before = words[at - 1]
        wrong = "is out of the limits of" if is_whole(word) else "isn't digits alone, as it has to be for"
        return [f"`{word}` {wrong} `{before}`: {LIMITS.get(before, 'a number is 1 to 20 digits')}"]
    return _unknown(command, word)


def _missing(words: Sequence[str]) -> str:
    if not words:
        return "a command is missing; `pop help` has the commands"
    last = words[-1]
    return f"a number is missing after `{last}`: {LIMITS.get(last, 'each option is followed by its number')}"


def _product(words: Sequence[str]) -> str:
    given = dict(zip(words[1::2], words[2::2]))
    workers, turns = whole_of(str(given.get("--workers", WORKERS_USUAL))), whole_of(
        str(given.get("--turns", TURNS_USUAL))
    )
    return (
        f"{workers:,} workers with {turns:,} turns each are {workers * turns:,} turns; {LIMITS['--turns']}: with"
        f" {workers:,} workers give at most `--turns {2_000_000 // max(workers, 1)}`"
    )


def _unknown(command: str, word: str) -> list[str]:
    usage = f"{USAGE.get(command, 'pop ' + command)}"
    own = list(NUMBERED) if command in ("run", "watch") else list(FLAGS.get(command, ()))
    name, sign, value = word.partition("=")
    if sign and name in own:
        return [f"`{word}`: put a blank before the number, as in `{name} {value or 'N'}`"]
    for other in ("run", "compile", "replay"):
        if word in (NUMBERED if other == "run" else FLAGS[other]):
            return [
                f"`{word}` is an option of `{'run` and `watch' if other == 'run' else other}`, and `{command}` "
                f"has {'no options' if not own else 'others: ' + ', '.join(own)}"
            ]
    if word in OUTPUT:
        return [f"`{word}` is after a predicate: {USAGE['compile']}"]
    if word.startswith("-") and word != "-":
        close = meant(word, [*own, "--help"])
        return [f"`{word}` is no option of `{command}`{close or '; it has ' + (', '.join(own) if own else 'none')}"]
    if is_whole(word) and os.path.exists(word):
        return [f"the file `{word}` is given as `./{word}`: a number alone is the program's own word"]
    return [f"`{word}` has no place here: {usage}, or `pop {command} < FILE`"]
