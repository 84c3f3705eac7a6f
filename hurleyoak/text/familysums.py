"""Numbers and conditions of a family's text: sums over parameters and names of loops, and comparisons of them."""
from __future__ import annotations

import ast
import operator
import re
from functools import lru_cache
from typing import Callable, Mapping

EXPONENT_LIMIT = 64
SIZE_LIMIT = 1 << 64
EXPRESSION_LIMIT = 1_000  # signs
KEPT = 1_000  # texts that are read once

CALLS: dict[str, Callable[..., int]] = {"min": min, "max": max, "abs": abs}
SUM_SIGNS = "a sum has the signs + - * // % ^, parentheses, min, max and abs"
COMPARISON_SIGNS = "a comparison has the signs < <= > >= = and !="
_SIGNS: dict[type[ast.AST], Callable[[int, int], int]] = {
    ast.Add: operator.add,
    ast.Sub: operator.sub,
    ast.Mult: operator.mul,
    ast.FloorDiv: operator.floordiv,
    ast.Mod: operator.mod,
}
_COMPARED: dict[type[ast.AST], Callable[[int, int], bool]] = {
    ast.Lt: operator.lt,
    ast.LtE: operator.le,
    ast.Gt: operator.gt,
    ast.GtE: operator.ge,
    ast.Eq: operator.eq,
    ast.NotEq: operator.ne,
}
_EQUALS = re.compile(r"(?<![<>=!])=(?!=)")

Values = Mapping[str, int]


class NoSum(Exception):
    """A text is no sum, or no condition, over these names; `part` is the text, and the message says why."""

    def __init__(self, why: str, part: str = "") -> None:
        super().__init__(why)
        self.part = part


def number_of(text: str, values: Values) -> int:
    """The value of a sum; NoSum where it is none."""
    try:
        return _number(_parsed(text), values)
    except NoSum as why:
        raise NoSum(str(why), text) from None


def holds(text: str, values: Values) -> bool:
    """Whether a comparison, or several joined by `and`, is true; NoSum where any of them is none."""
    try:
        return _holds(_parsed(_EQUALS.sub("==", text)), values)
    except NoSum as why:
        raise NoSum(str(why), text) from None


def _holds(node: ast.expr, values: Values) -> bool:
    parts = node.values if isinstance(node, ast.BoolOp) and isinstance(node.op, ast.And) else [node]
    out = True
    for part in parts:
        if not isinstance(part, ast.Compare):
            raise NoSum("after `if` comes a comparison, as in `i + j < m`, or several joined by `and`")
        numbers = [_number(side, values) for side in (part.left, *part.comparators)]
        for sign, a, b in zip(part.ops, numbers, numbers[1:]):
            if type(sign) not in _COMPARED:
                raise NoSum(COMPARISON_SIGNS)
            out = _COMPARED[type(sign)](a, b) and out
    return out


@lru_cache(maxsize=KEPT)
def _parsed(text: str) -> ast.expr:
    if len(text) > EXPRESSION_LIMIT:
        raise NoSum(f"a sum has over {EXPRESSION_LIMIT} signs")
    if not text.isascii():
        raise NoSum(f"`{text.strip()}` is no sum: it has a sign that isn't ASCII")
    try:
        return ast.parse(text.strip().replace("^", "**"), mode="eval").body
    except (SyntaxError, ValueError, RecursionError, MemoryError):
        raise NoSum(f"`{text.strip()}` is no sum") from None


def _number(node: ast.expr, values: Values) -> int:
    if isinstance(node, ast.Constant) and type(node.value) is int:
        return _sized(node.value)
    if isinstance(node, ast.Name):
        if node.id not in values:
            raise NoSum(f"`{node.id}` is neither a parameter nor the name of a loop")
        return values[node.id]
    if isinstance(node, ast.UnaryOp) and isinstance(node.op, ast.USub):
        return -_number(node.operand, values)
    if isinstance(node, ast.BinOp):
        return _sized(_joined(node.op, _number(node.left, values), _number(node.right, values)))
    if isinstance(node, ast.Call) and isinstance(node.func, ast.Name) and node.func.id in CALLS and node.args:
        return _called(node, node.func.id, values)
    raise NoSum(SUM_SIGNS)


def _joined(sign: ast.operator, left: int, right: int) -> int:
    if isinstance(sign, ast.Pow):
        if not 0 <= right <= EXPONENT_LIMIT:
            raise NoSum(f"an exponent is 0 to {EXPONENT_LIMIT}, found {right}")
        return int(left**right)
    if type(sign) not in _SIGNS:
        raise NoSum(SUM_SIGNS)
    if right == 0 and isinstance(sign, (ast.FloorDiv, ast.Mod)):
        raise NoSum("a division by 0")
    return _SIGNS[type(sign)](left, right)


def _called(node: ast.Call, name: str, values: Values) -> int:
    if node.keywords or len(node.args) == 1 and name != "abs" or len(node.args) > 1 and name == "abs":
        raise NoSum(f"`{name}` takes {'one number' if name == 'abs' else 'several numbers'}")
    return CALLS[name](*(_number(part, values) for part in node.args))


def _sized(number: int) -> int:
    if abs(number) > SIZE_LIMIT:
        raise NoSum("a number is over 2^64")
    return number
