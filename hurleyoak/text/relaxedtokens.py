"""The tokens of a predicate as people write it."""
from __future__ import annotations

import re
from dataclasses import dataclass

_TOKEN = re.compile(
    r"[ \t]*(?:([A-Za-z_][A-Za-z0-9_]*)|([0-9]+)"
    r"|(<=>|<->|=>|->|<=|>=|=<|!=|<>|==|&&|\|\||[-+*<>=!()%&|≤≥≠≡∧∨¬⇒→⇔↔])|(.))",
    re.DOTALL,
)
_SAME = {
    "==": "=",
    "≡": "=",
    "≤": "<=",
    "≥": ">=",
    "=<": "<=",
    "≠": "!=",
    "<>": "!=",
    "&": "&&",
    "∧": "&&",
    "and": "&&",
    "|": "||",
    "∨": "||",
    "or": "||",
    "¬": "!",
    "not": "!",
    "mod": "mod",
}
RELATIONS = ("<", "<=", ">", ">=", "=", "!=")
IMPLIES, EQUIVALENT = ("=>", "->", "⇒", "→"), ("<=>", "<->", "⇔", "↔")
# what stands behind digits in other numbers: an exponent, a unit of thousands, the rest of `0x10`, or `_000`
_ENDS = re.compile(r"[eE][0-9]*|[kKmMgGtT]|_.*|mod[0-9]*")
_PREFIXED = re.compile(r"[xXbBoO][0-9a-fA-F]+")
GLUED_MODULUS = re.compile(r"mod[0-9]+")


def looks_like_number(digits: str, name: str) -> bool:
    """Whether digits with a name behind them may be meant for a number."""
    return bool(_ENDS.fullmatch(name) or digits == "0" and _PREFIXED.fullmatch(name))


class NotRead(Exception):
    """A text isn't read: the offset, and what is wrong there."""

    def __init__(self, at: int, told: str) -> None:
        super().__init__(told)
        self.at, self.told = at, told


@dataclass
class Token:
    text: str
    kind: str
    at: int


def tokens_of(text: str) -> list[Token]:
    """The tokens of a text, and its end."""
    out: list[Token] = []
    for match in _TOKEN.finditer(text):
        at = match.start(match.lastindex or 0)
        found = match.group(match.lastindex or 0)
        kind = ("name", "number", "sign", "odd")[(match.lastindex or 1) - 1]
        if found in _SAME:
            found, kind = _SAME[found], "sign"
        if found.strip():
            out.append(Token(found, kind, at))
    return out + [Token("", "end", len(text))]


def arrow_told(sign: str) -> str:
    """What is meant by an arrow, which no predicate has; empty for other signs."""
    if sign in IMPLIES:
        return f"`{sign}` is no sign of a predicate: `A {sign} B` is written `!(A) || B`, and at least is `>=`"
    if sign in EQUIVALENT:
        return f"`{sign}` is no sign of a predicate: `A {sign} B` is written `(A) && (B) || !(A) && !(B)`"
    return ""


def glued_modulus(word: str) -> str:
    """What is wrong with `mod3`."""
    return f"`{word}`: put a blank between `mod` and the modulus, as in `mod {word.removeprefix('mod')}`"
