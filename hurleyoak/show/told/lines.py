"""Sentences on the lines of an input: missing, too many, malformed; crowds and their counts."""
from __future__ import annotations

import re
from typing import Any

from ...engine.inputs import Asked
from ...engine.request import USAGE
from ...text.jsontext import read_json
from ...protocol.nets import VARIABLE_LIMIT, is_variable_name
from .formats import not_json_told
from .quoting import listed, meant, quoted, short
from ...wholes import is_whole, whole_of

WANTED = {
    "check": ["a bundle"],
    "show": ["a bundle"],
    "run": ["a bundle", "a crowd line"],
    "watch": ["a bundle", "a crowd line"],
    "settle": ["a bundle", "a crowd line"],
    "play": ["a net", "a crowd line"],
    "eval": ["a vars line, as `vars x y`", "a predicate", "a crowd line"],
    "compile": ["a vars line, as `vars x y`", "a predicate"],
    "replay": ["a bundle", "a crowd line", "a journal, as `run` prints it"],
}
COUNT_LIMIT = 1 << 64
LEAST_AGENTS, MOST_AGENTS = 2, 65_536
MOST_TAKES = 8_000_000


def net_value(asked: Asked) -> Any:
    """The JSON value of the net that is asked about; an empty object where there is none."""
    try:
        value = read_json(asked.lines[0])
    except (ValueError, IndexError, RecursionError):
        return {}
    return value.get("net", value) if isinstance(value, dict) else {}


def variables(asked: Asked) -> list[str]:
    """The variables that are asked about."""
    if asked.words[0] in ("eval", "compile"):
        return asked.lines[0].split(" ")[1:] if asked.lines else []
    net = net_value(asked)
    names = net.get("vars") if isinstance(net, dict) else None
    return [str(name) for name in names] if isinstance(names, list) else []


def helpers(asked: Asked) -> int:
    """How many helpers the net has."""
    net = net_value(asked)
    leaves = net.get("leaves") if isinstance(net, dict) and net.get("format") == 2 else None
    standing = (
        leaves[0].get("helpers") if isinstance(leaves, list) and leaves and isinstance(leaves[0], dict) else None
    )
    return len(standing) if isinstance(standing, list) else 0


def line_told(asked: Asked, number: int, why: str) -> list[str]:
    """On `fault: line N WHY`."""
    command = asked.words[0]
    wanted = WANTED[command]
    if why == "missing":
        return _missing(asked, number)
    if why == "extra":
        return _extra(asked)
    line = asked.lines[number - 1] if number <= len(asked.lines) else ""
    if command in ("eval", "compile"):
        return [*_vars_told(line)]
    if why == "agents":
        agents = sum(count_of(word) for word in asked.lines[1].split(" ")[1:]) + helpers(asked)
        same = len(set(line.split(" "))) == 1
        told = "an agent doesn't meet itself" if same else f"there are the agents 0 to {agents - 1:,}"
        return [f"line {number}, `{short(line)}`: {told}"]
    return _meeting_told(number, line, wanted)


def count_of(word: str) -> int:
    """The count of a word of a crowd line, 0 where it has none."""
    digits = word.partition("=")[2]
    return whole_of(digits) if is_whole(digits) and len(digits) <= 20 else 0


def _missing(asked: Asked, number: int) -> list[str]:
    command = asked.words[0]
    wanted = WANTED[command]
    what = wanted[min(number, len(wanted)) - 1]
    if not asked.lines:
        return [f"the input is empty; `{command}` takes {' and '.join(wanted)}: {USAGE[command]}"]
    if command == "replay":
        return [
            f"line {number} is missing; `replay` takes what `run` printed: the bundle, the crowd line and the journal"
        ]
    if command in ("eval", "compile") and not asked.lines[0].startswith("vars"):
        return _vars_told(asked.lines[0])
    if number == 2 and "crowd" in wanted[1]:
        if "crowd" in asked.lines[0][-200:] and asked.lines[0].lstrip().startswith("{"):
            return not_json_told(asked)
        names = variables(asked)
        example = " ".join(f"{name}={n}" for name, n in zip(names, (30, 10, 5))) or "x=30 y=10"
        return [
            f"the crowd is missing: give the counts after the file, as in `pop {command} {asked.file or 'FILE'} "
            f"{example}`, or a line `crowd {example}` after the {wanted[0].removeprefix('a ')}"
        ]
    if number == 3 and command == "eval":
        return [f"the counts are missing: {USAGE['eval']}, or a line `crowd x=2 y=1`"]
    return [f"line {number} is missing: it has {what}"]


def _extra(asked: Asked) -> list[str]:
    command = asked.words[0]
    wanted = WANTED[command]
    number = len(wanted)
    have = len(asked.lines)
    extra = asked.lines[number] if have > number else ""
    first = asked.lines[0].strip() if asked.lines else ""
    if wanted[0].endswith(("bundle", "net")) and not _is_json(first):
        return [
            f"the {wanted[0].removeprefix('a ')} is over {have} lines; it is one line: give the file as an "
            f"argument, as in `pop {command} FILE`, or use `jq -c .`"
        ]
    if command in ("check", "show") and extra.startswith("crowd"):
        return [
            f"line {number + 1} is a crowd line; `{command}` takes a bundle alone, and its answer holds for every "
            "crowd: `run` and `settle` take a crowd"
        ]
    if not extra.strip():
        return [f"line {number + 1} is empty; `{command}` takes {' and '.join(wanted)}, and nothing after"]
    return [f"line {number + 1}, `{short(extra)}`, is one too many: `{command}` takes {' and '.join(wanted)}"]


def _is_json(text: str) -> bool:
    try:
        read_json(text)
    except (ValueError, RecursionError):
        return False
    return True


def _vars_told(line: str) -> list[str]:
    rule = "a vars line is `vars` and 1 to 16 names, with one space before each, as in `vars x y`"
    if "\r" in line:
        return ["line 1 ends in CR and LF; a line ends in LF alone", *quoted(line, line.index("\r"))]
    words = line.split(" ")
    if words[0] != "vars":
        return [f"line 1 begins with `{short(words[0])}`: {rule}", *quoted(line, 0)]
    seen: set[str] = set()
    at = len(words[0])
    for word in words[1:]:
        at += 1
        if not is_variable_name(word):
            what = (
                "two spaces"
                if word == ""
                else f"`{short(word)}` is no name: 1 to 32 letters, digits and `_`, no digit first, and not `mod`"
            )
            return [f"line 1: {what}; {rule}", *quoted(line, at)]
        if word in seen:
            return [f"line 1: `{word}` is named twice", *quoted(line, at)]
        seen.add(word)
        at += len(word)
    many = f"there are {len(seen)} names; " if len(seen) > VARIABLE_LIMIT else ""
    return [f"line 1: {many}{rule}", *quoted(line, 0)]


def _meeting_told(number: int, line: str, wanted: list[str]) -> list[str]:
    rule = "a meeting line has two numbers of agents with one space between them, as `0 2`"
    if number <= len(wanted):
        return [f"line {number} is no line of {wanted[number - 1].removeprefix('a ')}", *quoted(line, 0)]
    if "\r" in line:
        return [f"line {number} ends in CR and LF; a line ends in LF alone", *quoted(line, line.index("\r"))]
    found = re.match(r"[0-9]{1,20}(?: (?:[0-9]{1,20})?)?", line)
    return [f"line {number}: {rule}", *quoted(line, found.end() if found else 0)]


def count_told(asked: Asked, at: int) -> list[str]:
    """On `fault: count W`: the word of the crowd line with this number."""
    line = asked.lines[2 if asked.words[0] == "eval" else 1]
    words = line.split(" ")
    place = sum(len(word) + 1 for word in words[:at])
    where = quoted(line, place)
    names = variables(asked)
    whose = "the predicate" if asked.words[0] == "eval" else "this net"
    if "\r" in line and at == len(words) - 1:
        return ["the crowd line ends in CR and LF; a line ends in LF alone", *quoted(line, line.index("\r"))]
    word = words[at] if at < len(words) else ""
    if at == 0 and asked.names[1:2] == ["the meetings"]:
        return [f"the counts are missing: {USAGE['play']}"]
    if at == 0:
        return [
            (
                "a crowd line is `crowd` and the counts, as in `crowd x=30 y=10`; this one begins with "
                f"`{short(word)}`{meant(word, ['crowd'])}"
            ),
            *where,
        ]
    if word == "":
        return ["there is one space before each count, and here is one more", *where]
    name, sign, count = word.partition("=")
    if not sign:
        return [
            (
                f"`{short(word)}` is no count: a count is a variable, `=` and a number, as in "
                f"`{names[0] if names else 'x'}=3`"
            ),
            *where,
        ]
    if name not in names:
        return [f"`{name}` is no variable of {whose}; it has {listed(names)}{meant(name, names)}", *where]
    if any(other.partition("=")[0] == name for other in words[1:at]):
        return [f"`{name}` is counted twice", *where]
    if count.startswith("-"):
        return [f"a count is 0 or more, and `{word}` is negative", *where]
    if is_whole(count) and whole_of(count) >= COUNT_LIMIT:
        return [f"a count is below 2^64, {COUNT_LIMIT:,}", *where]
    return [f"`{short(count)}` is no count: it is 1 to 20 digits, without sign, point or comma", *where]


def size_told(asked: Asked, size: int) -> list[str]:
    """On `fault: size N`."""
    few = size < LEAST_AGENTS
    beside = "" if asked.lines and '"helpers"' not in asked.lines[0] else ", helpers included,"
    end = "in a smaller one no agents meet" if few else "what `check` certifies holds for greater ones too"
    return [
        f"the crowd has {size:,} {'agent' if size == 1 else 'agents'}{beside} and `{asked.words[0]}` takes 2 to "
        f"{MOST_AGENTS:,}; {end}"
    ]


def settle_told(takes: int) -> list[str]:
    """On `fault: settle N`."""
    return [
        f"the proof allows {takes:,} steps for this crowd, and `settle` goes up to {MOST_TAKES:,}: give fewer agents"
    ]
