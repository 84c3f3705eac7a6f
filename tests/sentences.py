"""Counts the words of sentences, for tests/documents.py: none has over 30, in documents, in help and in messages."""
from __future__ import annotations

import ast
import re
from collections.abc import Iterator

MOST_WORDS = 30
ITEM = re.compile(r"\s*(?:[-*]|\d+\.) +")
# what ends a sentence, before what begins one
END = re.compile(r"(?<=[.!?])[)\"'*_]*\s+(?=[A-Z\[`\"*(_]|(?:docs|examples|hurleyoak|bench|tests)/)")
# a word of prose has a letter or a digit, and so has one of a code span, in which blanks alone divide words
CODE_WORD, WORD = re.compile(r"\S*\w\S*"), re.compile(r"[\w'’-]+")
CODE, TARGET = re.compile(r"`([^`]*)`"), re.compile(r"\]\([^)]*\)")
CELL, BREAK = re.compile(r"(?<!\\)\|"), "<br>"
TITLE, COMMENT, TABLE = "#", "<!", "|"
# signs of a text in another language: of a page, a style or a script
PROGRAM = re.compile(r"\{\n|</|\{[^}]*: [^}]*;|=> ")


def parts_of(line: str) -> list[str]:
    """The cells of a table's row, and the pieces of a cell with a break."""
    return [part.strip() for cell in CELL.split(line) for part in cell.split(BREAK)]


def paragraphs(prose: str) -> Iterator[tuple[int, str]]:
    """Each paragraph, item and cell with the number of its first line; titles and code are left out."""
    start = 0
    kept: list[str] = []
    for number, line in enumerate([*prose.split("\n"), ""], 1):
        item = ITEM.match(line)
        is_apart = not line.strip() or line.startswith((TITLE, COMMENT, TABLE))
        if kept and (is_apart or item):
            yield start, " ".join(kept)
            kept = []
        if line.startswith(TABLE):
            yield from ((number, part) for part in parts_of(line))
        if not is_apart:
            start = start if kept else number
            kept.append(line[item.end() :] if item else line.strip())


def shown(code: re.Match[str]) -> str:
    """A code span as so many plain words as it has, with nothing that ends a sentence."""
    return "`" + " ".join("code" for _ in CODE_WORD.findall(code[1])) + "`"


def long_sentences(prose: str) -> Iterator[tuple[int, str]]:
    """The sentences with too many words: the line of their paragraph, and how many words they have."""
    for number, text in paragraphs(prose):
        for sentence in END.split(TARGET.sub("]", CODE.sub(shown, text))):
            words = len(WORD.findall(sentence))
            if words > MOST_WORDS:
                yield number, f"{words} words: {sentence[:60]} .."


def texts_of(source: str) -> Iterator[tuple[int, str]]:
    """The texts of a Python file with their lines: messages, help and docstrings. What is filled in counts as a
    word."""
    tree = ast.parse(source)
    parts = {id(part) for node in ast.walk(tree) if isinstance(node, ast.JoinedStr) for part in node.values}
    for node in ast.walk(tree):
        if isinstance(node, ast.JoinedStr):
            pieces = (str(part.value) if isinstance(part, ast.Constant) else "`x`" for part in node.values)
            yield node.lineno, "".join(pieces)
        elif isinstance(node, ast.Constant) and isinstance(node.value, str) and id(node) not in parts:
            yield node.lineno, node.value


def long_messages(source: str) -> Iterator[tuple[int, str]]:
    """The same of the texts of a Python file, each told at the text's first line."""
    for number, text in texts_of(source):
        if not PROGRAM.search(text):
            yield from ((number, fault) for _, fault in long_sentences(text))
