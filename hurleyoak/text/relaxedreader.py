"""Reads a predicate as people write it, by the tokens, into a text of the grammar."""
from __future__ import annotations

from typing import Callable, Sequence

from ..limits import BOUND_LIMIT as CONSTANT_LIMIT
from ..limits import MODULUS_LIMIT
from ..limits import PARENTHESIS_LIMIT as OPEN_LIMIT
from ..limits import WEIGHT_LIMIT as CHARGE_LIMIT
from ..wholes import whole_of
from .relaxedsums import Sum, comparison_text, congruence_text
from .relaxedtokens import GLUED_MODULUS, RELATIONS, NotRead, Token, arrow_told, glued_modulus, looks_like_number
from .relaxedtokens import tokens_of

OR, AND, UNIT = 1, 2, 3
TRUTHS = ("true", "false", "True", "False")
MODULUS_TOLD = f"a modulus is 2 to {MODULUS_LIMIT}"


class FormReader:
    """Reads a text; `names` are the variables where they are known, `declared` those that stand elsewhere, as with
    counts."""

    def __init__(self, text: str, names: Sequence[str] | None = None, declared: Sequence[str] = ()) -> None:
        self.tokens = tokens_of(text)
        self.names = names
        # (the names that stand somewhere without a number before them)
        self.free = {
            t.text
            for before, t in zip([None, *self.tokens], self.tokens)
            if t.kind == "name" and not (before and before.kind == "number")
        }
        self.free |= set(declared)
        self.next = self.open = self.signs = 0

    def peek(self) -> Token:
        return self.tokens[self.next]

    def takes(self, *texts: str) -> str:
        token = self.peek()
        if token.kind == "sign" and token.text in texts:
            self.next += 1
            return token.text
        return ""

    def refuse(self, expected: str) -> NotRead:
        token = self.peek()
        if told := arrow_told(token.text):
            return NotRead(token.at, told)
        if GLUED_MODULUS.fullmatch(token.text):
            return NotRead(token.at, glued_modulus(token.text))
        before = self.tokens[max(0, self.next - 1)]
        if before.text in TRUTHS and before.text not in (self.names or ()):
            return NotRead(before.at, f"`{before.text}` is no predicate: `0*x < 1` is always true, `0*x < 0` never")
        return NotRead(
            token.at, f"expected {expected}, " + (f"found `{token.text}`" if token.text else "the predicate ends here")
        )

    def number(self, expected: str) -> int:
        token = self.peek()
        if token.kind != "number":
            raise self.refuse(expected)
        self.next += 1
        value = whole_of(token.text)
        if value > CONSTANT_LIMIT:
            raise NotRead(token.at, f"the number is too great: no constant is above {CONSTANT_LIMIT}")
        return value

    def name(self) -> str:
        """A variable, which has to be one of those that are known."""
        token = self.peek()
        if self.names is not None and token.text not in self.names:
            raise NotRead(token.at, f"`{token.text}` is no variable; there are {', '.join(self.names)}")
        self.next += 1
        return token.text

    def deeper(self) -> None:
        """One more parenthesis is open."""
        self.open += 1
        if self.open > OPEN_LIMIT:
            raise NotRead(self.peek().at, f"at most {OPEN_LIMIT} parentheses are open at once")

    def joins(self) -> None:
        """One more sign that joins or negates."""
        self.signs += 1
        if self.signs > CHARGE_LIMIT:
            raise NotRead(self.peek().at, f"there are at most {CHARGE_LIMIT} signs `&&`, `||`, `!` and `=`")

    def whole(self) -> str:
        text, _ = self.either()
        if self.peek().kind != "end":
            raise self.refuse("`&&`, `||` or the end")
        return text

    def _joined(self, sign: str, own: int, part: Callable[[], tuple[str, int]]) -> tuple[str, int]:
        text, strength = part()
        while self.takes(sign):
            self.joins()
            right, right_strength = part()
            left = text if strength >= own else f"({text})"
            text, strength = f"{left} {sign} {right if right_strength > own else f'({right})'}", own
        return text, strength

    def either(self) -> tuple[str, int]:
        return self._joined("||", OR, self.both)

    def both(self) -> tuple[str, int]:
        return self._joined("&&", AND, self.unit)

    def unit(self) -> tuple[str, int]:
        if self.takes("!"):
            self.joins()
            text, strength = self.unit()
            is_bare = text.startswith(("!", "("))
            return (f"!{text}" if strength == UNIT and is_bare else f"!({text})"), UNIT
        start, open_ = self.next, self.open
        try:
            return self.comparison()
        except NotRead as fault:
            end, self.next, self.open = self.next, start, open_
            if not self.takes("("):
                self.next = end
                raise
            first = fault
        self.deeper()
        try:
            text, _ = self.either()
            if not self.takes(")"):
                raise self.refuse("`)`, `&&` or `||`")
        except NotRead as fault:
            # (of the two ways to read it the one that comes further is told)
            raise fault if fault.at >= first.at else first from None
        self.open -= 1
        return f"({text})", UNIT

    def comparison(self) -> tuple[str, int]:
        """`sum relation sum ..`, where each side may have variables and constants."""
        first = self.sum()
        modulus = self.modulus_behind(True)
        found: list[str] = []
        while self.peek().text in RELATIONS and self.peek().kind == "sign":
            place = self.peek().at
            relation = self.takes(*RELATIONS)
            second = self.sum(is_left=False)
            if found and self.is_modulus():
                raise NotRead(self.peek().at, "a congruence is no link of a chain: join two comparisons by `&&`")
            last = self.modulus_behind(False) if relation in ("=", "!=") and modulus is None else None
            if modulus is not None or last is not None:
                return self.congruence(first, relation, second, modulus, last, place), UNIT
            if self.is_modulus():
                raise NotRead(self.peek().at, "a remainder is compared by `=` or `!=`, and is no part of another sum")
            if found:
                self.joins()
            found.append(comparison_text(first, relation, second, place))
            first = second
        if not found or modulus is not None:
            raise self.refuse("one of `<`, `<=`, `>`, `>=`, `=`, `!=`")
        return (found[0], UNIT) if len(found) == 1 else (f"({' && '.join(found)})", UNIT)

    def congruence(
        self, left: Sum, relation: str, right: Sum, inner: int | None, outer: int | None, place: int
    ) -> str:
        """The text of a congruence, behind which `&&`, `||`, `)` or the end comes."""
        text = congruence_text(left, relation, right, inner, outer, place)
        if not (self.peek().kind == "end" or self.peek().kind == "sign" and self.peek().text in ("&&", "||", ")")):
            if arrow_told(self.peek().text):
                raise self.refuse("")
            raise NotRead(
                self.peek().at,
                f"after a congruence comes `&&`, `||`, `)` or the end, and here is `{self.peek().text}`",
            )
        return text

    def is_modulus(self) -> bool:
        """Whether `mod`, `(mod` or `%` comes next."""
        at = self.next + (self.peek().text == "(" and self.next + 1 < len(self.tokens))
        return self.tokens[at].kind == "sign" and (self.tokens[at].text == "mod" or self.peek().text == "%")

    def modulus_behind(self, is_left: bool) -> int | None:
        """`mod 3` or `(mod 3)`, and on the left of the sign `% 3`, if it comes next."""
        start = self.next
        open_ = self.takes("(")
        if self.takes("mod"):
            modulus = self.modulus_number()
            if open_ and not self.takes(")"):
                raise self.refuse("`)`")
            return modulus
        self.next = start
        if is_left and self.takes("%"):
            return self.modulus_number()
        return None

    def modulus_number(self) -> int:
        """The number behind `mod` or `%`."""
        token = self.peek()
        if token.kind != "number":
            raise NotRead(token.at, f"{MODULUS_TOLD}, and comes after `mod` or `%` as a number alone")
        modulus = self.number("a number, the modulus")
        if not 2 <= modulus <= MODULUS_LIMIT:
            raise NotRead(token.at, MODULUS_TOLD)
        return modulus

    def sum(self, is_left: bool = True) -> Sum:
        """A sum on the left or on the right of a sign; on the left a modulus takes one term, whichever way it is
        written."""
        sign = -1 if self.takes("-") else 1
        out, terms = self.term().times(sign), 1
        while True:
            if self.peek().text == "%" and not is_left:
                raise NotRead(
                    self.peek().at,
                    (
                        "`%` belongs on the left of the sign, as in `x % 3 = 1`; that two sums leave the same"
                        " remainder is written `x = y mod 3`"
                    ),
                )
            if is_left and terms > 1 and self.is_modulus():
                raise NotRead(
                    self.peek().at,
                    (
                        f"`{'%' if self.peek().text == '%' else 'mod'}` on the left of the sign takes one term. Put"
                        " the sum in parentheses, as in `(x - y) % 3 = 1`, or the modulus at the end, as in `x - y ="
                        " 1 mod 3`"
                    ),
                )
            which = self.takes("+", "-")
            if not which:
                return out
            out, terms = out.plus(self.term(), 1 if which == "+" else -1), terms + 1

    def term(self) -> Sum:
        out = self.factor()
        while True:
            token = self.peek()
            if self.takes("*"):
                pass
            elif not (
                out.coefficients == {}
                and (token.kind == "name" or token.text == "(" and self.tokens[self.next + 1].text != "mod")
            ):
                return out
            place = self.peek().at
            if token.kind == "name":
                self.product(token)
            right = self.factor()
            if out.coefficients and right.coefficients:
                raise NotRead(place, "a product of two variables has no form here")
            out = right.times(out.constant) if right.coefficients else out.times(right.constant)

    def product(self, name: Token) -> None:
        """`3x` is a product. Fails at `1e5`, `10k`, `0x10`, where the name isn't known: these may be meant for numbers."""
        before = self.tokens[self.next - 1]
        is_known = name.text in self.free if self.names is None else name.text in self.names
        if before.kind != "number" or is_known or self.names is None and not looks_like_number(before.text, name.text):
            return
        if GLUED_MODULUS.fullmatch(name.text):
            raise NotRead(name.at, glued_modulus(name.text))
        raise NotRead(
            before.at,
            (
                f"`{before.text}{name.text}` is no number, which is digits alone; a product is written"
                f" `{before.text}*{name.text}`, and without the sign where `{name.text}` also occurs elsewhere, or is"
                " declared"
            ),
        )

    def factor(self) -> Sum:
        token = self.peek()
        if token.kind == "number":
            return Sum({}, self.number("a number"))
        if token.kind == "name":
            return Sum({self.name(): 1})
        if self.takes("-"):
            return self.factor().times(-1)
        if not self.takes("("):
            raise self.refuse("a variable or a number")
        self.deeper()
        inside = self.sum()
        if not self.takes(")"):
            raise self.refuse("`)`")
        self.open -= 1
        return inside
