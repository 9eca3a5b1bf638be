"""The numbers of an answer that a person wrote: with units, powers, fractions, separators of thousands, in any base, and sums of these."""
from __future__ import annotations

import re
import unicodedata
from dataclasses import dataclass, replace
from fractions import Fraction

SUPERSCRIPTS = str.maketrans("⁰¹²³⁴⁵⁶⁷⁸⁹⁻⁺", "0123456789-+")
SIGNS = str.maketrans({"−": "-", "–": "-", "—": "-", "×": "*", "·": "*", "⋅": "*", "∗": "*", "÷": "/", "⁄": "/", "∕": "/", "≈": "=",
                       "≃": "=", "≅": "=",
                       "∼": "=", "~": "=", "⇒": "→", "⟶": "→", "➔": "→", "’": "'", "‘": "'", "“": '"', "”": '"', "≤": " at most ",
                       "≥": " at least "})
TEX = ((r"\\d?frac\{([^{}]*)\}\{([^{}]*)\}", r"(\1)/(\2)"), (r"\\(?:times|cdot)\b", "*"), (r"\\mu\b", "μ"),
       (r"\\(?:text|mathrm)\{([^{}]*)\}", r" \1 "),
       (r"\\(?:approx|simeq)\b", "="), (r"\\[,;: ]", " "), (r"\\%", "%"), (r"\^\{([^{}]*)\}", r"^\1"), (r"\$", ""),
       (r"\*\*(?=\s|[A-Za-z(])|(?<=[.):\w])\*\*(?![-\d])|`|__", ""))
Factors = tuple[tuple[str, "int | Fraction"], ...]
TIME: Factors = (("ps psec picosecond picoseconds", Fraction(1, 1000)),
                 ("ns nsec nsecs nanosec nanosecs nanosecond nanoseconds nanos nano", 1),
        ("us μs μsec usec usecs microsec microsecs microsecond microseconds micros", 1000),
        ("ms msec msecs millisec millisecs millisecond milliseconds millis", 10 ** 6), ("s sec secs second seconds", 10 ** 9),
        ("minute minutes", 60 * 10 ** 9), ("hour hours", 3600 * 10 ** 9))
SIZE: Factors = (("b byte bytes", 1), ("kb kib kbyte kbytes kilobyte kilobytes kibibyte kibibytes", 1024),
        ("mb mib mbyte mbytes megabyte megabytes mebibyte mebibytes", 1024 ** 2),
                 ("gb gib gigabyte gigabytes gibibyte gibibytes", 1024 ** 3))
OTHERS: dict[str, Factors] = {"bits": (("bit bits", 1), ("kbit kbits kilobit kilobits", 1024), ("mbit mbits", 1024 ** 2)),
                              "share": (("% percent pct", Fraction(1, 100)),),
          "ratio": (("times x fold", 1),), "cycles": (("cycle cycles tick ticks", 1),)}
UNITS = {name: (kind, Fraction(factor)) for kind, table in {"time": TIME, "size": SIZE, **OTHERS}.items() for names,
         factor in table for name in names.split()}
SCALES = {"thousand": (1000, 1000), "million": (10 ** 6, 10 ** 6), "millions": (10 ** 6, 10 ** 6), "mio": (10 ** 6, 10 ** 6),
          "k": (1000, 1024),
          "m": (10 ** 6, 1024 ** 2), "g": (10 ** 9, 1024 ** 3), "ki": (1024, 1024), "mi": (1024 ** 2, 1024 ** 2),
          "gi": (1024 ** 3, 1024 ** 3)}
WORDS = {name: number for number, name in enumerate(
    "zero one two three four five six seven eight nine ten eleven twelve thirteen fourteen fifteen sixteen seventeen eighteen nineteen "
    "twenty".split())}
WORDS |= {name: 10 * tens for tens, name in enumerate("thirty forty fifty sixty".split(), 3)}
GROUPED = r"\d{1,3}(?:,\d{3})+(?!,?\d)"
TOKEN = re.compile(r"""
    (?P<hex>0[xX][0-9a-fA-F][0-9a-fA-F_']*(?!\w) | (?<![\w.])[0-9][0-9a-fA-F]*[hH](?!\w))
  | (?P<binary>0[bB][01][01_]*(?!\w))
  | (?P<decimal>(?:(?:\d{1,3}(?:['_]\d{3})+|\d+)(?:\.\d+)?|(?<![\w.])\.\d+)(?:[eE][-+]?\d+(?!\d))?)
  | (?P<word>[^\W\d_]+(?:-ins?)?|%)
  | (?P<power>\^|\*\*)
  | (?P<sign>[-+*/()])
  | (?P<equal>=|→|->)
  | (?P<other>\S)""", re.X)


@dataclass(frozen=True)
class Number:
    """A number as it was written: in its unit's base, with what its last place counts there (0 where it was computed)."""
    value: Fraction
    place: Fraction = Fraction(0)
    kind: str = ""    # of its unit
    scale: Fraction = Fraction(1)    # what its unit counts
    is_plain: bool = True    # no sum of others
    text: str = ""
    after: tuple[str, ...] = ()    # the words up to the next number or comma
    before: tuple[str, ...] = ()


@dataclass(frozen=True)
class Manner:
    """How the numbers of a part are read."""
    unit: str = ""    # the kind of unit that is asked
    factor: Fraction = Fraction(1)    # of a number without a unit
    is_binary: bool = False    # 4K is 4096
    base: int = 10    # of digits with no 0x
    signs: str = "+-*/()"    # of these sums are made; others only separate
    has_comma: bool = False    # 1,5 is one and a half


@dataclass
class Token:
    kind: str
    text: str
    has_blank: bool    # before it
    at: int


def plain_text(text: str) -> str:
    """A text whose signs are those of a keyboard."""
    text = re.sub(r"[⁻⁺]?[⁰¹²³⁴⁵⁶⁷⁸⁹]+", lambda at: "^" + at[0].translate(SUPERSCRIPTS), text)
    text = text.replace("½", "0.5")
    text = unicodedata.normalize("NFKC", text).translate(SIGNS)
    text = re.sub(r"=+>|-+>", "→", text)
    text = text.replace("<=", " at most ").replace(">=", " at least ")
    for pattern, to in TEX:
        text = re.sub(pattern, to, text)
    return re.sub(r"[\da-fA-F]{41,}", "?", text)    # nobody's answer, and long to compute


def says_comma(text: str) -> bool:
    """Whether a whole answer has numbers whose comma can only be decimal, and none with a decimal point."""
    point = re.search(r"(?<![\d.])(?:0\.\d+|\d+\.(?:\d{1,2}|\d{4,}))(?![\d.])", text)
    return point is None and re.search(r"(?<![\w.,])(?:0,\d+|\d{4,},\d+|\d+,(?:\d{1,2}|\d{4,}))(?![\d,])(?!\s*,\s*\d)", text) is not None


def with_points(text: str) -> str:
    """A text of the other convention, with points for its decimal commas."""
    text = re.sub(r"(?<![\d.,])\d{1,3}(?:\.\d{3})+(?![\d.])", lambda at: at[0].replace(".", ""), text)
    return re.sub(r"(?<![\d,])(\d+),(\d+)(?![\d,])", r"\1.\2", text)


def without_groups(text: str) -> str:
    """1,000 and 1 000 and 1.000.000 as one number each, and 1,5 as one and a half: of a part that asks for one number."""
    text = re.sub(r"(?<![\w.,])" + GROUPED, lambda at: at[0].replace(",", ""), text)
    text = re.sub(r"(?<![\w.,])\d{1,3}(?:\.\d{3}){2,}(?![\d.])", lambda at: at[0].replace(".", ""), text)
    text = re.sub(r"(?<![\w.,])[1-9]\d{0,2}(?: \d{3})+(?!\d)", lambda at: at[0].replace(" ", ""), text)
    return re.sub(r"(?<![\w.,])(\d+),(\d+)(?![\d,])", r"\1.\2", text)


def tokens_of(text: str, base: int) -> list[Token]:
    """The tokens of a text. In base 16 a word of such digits is a number, and so it is in base 2."""
    found, end = [], 0
    pattern = TOKEN
    if base == 16:
        pattern = re.compile(r"(?P<bare>(?<![\w.])(?:[0-9][0-9a-fA-F]*|[A-Fa-f]+[0-9][0-9a-fA-F]*|[A-F]{2,})(?![\w.]\w|"
                             r"\w))|" + TOKEN.pattern, re.X)
    for at in pattern.finditer(text):
        kind = str(at.lastgroup)
        found.append(Token(kind, at[0], at.start() > end, at.start()))
        end = at.end()
    return found


def number_of(token: Token, base: int) -> Number:
    text = token.text.replace("_", "").replace("'", "")
    if token.kind == "hex":
        return Number(Fraction(int(text[2:] if text[:2] in ("0x", "0X") else text[:-1], 16)), Fraction(1), text=token.text)
    if token.kind == "binary":
        return Number(Fraction(int(text[2:], 2)), Fraction(1), text=token.text)
    if token.kind == "bare":
        return Number(Fraction(int(text, 16)), Fraction(1), text=token.text)
    if base == 2 and set(text) <= {"0", "1"}:
        return Number(Fraction(int(text, 2)), Fraction(1), text=token.text)
    mantissa, _, power = text.lower().partition("e")
    if abs(int(power or 0)) > MOST_POWER:
        raise Unread
    scale = Fraction(10) ** int(power or 0)
    places = len(mantissa.partition(".")[2])
    return Number(Fraction(mantissa) * scale, scale / 10 ** places, text=token.text)


MOST_DEEP = 20    # of brackets
MOST_POWER = 64


class Unread(Exception):
    """What stands there is no sum of numbers."""


class Reader:
    """Reads the numbers of a text one after another, with the sums and powers that are made of them."""

    def __init__(self, text: str, manner: Manner):
        self.tokens, self.manner, self.at, self.depth = tokens_of(text, manner.base), manner, 0, 0
        self.mark_products()

    def mark_products(self) -> None:
        """`16 x 4` is a product; `1.5x` is no product."""
        for before, token, after in zip(self.tokens, self.tokens[1:], self.tokens[2:]):
            if token.text in ("x", "X") and self.is_number(before) and self.is_number(after):
                token.kind, token.text = "sign", "*"

    @staticmethod
    def is_number(token: Token | None) -> bool:
        return token is not None and token.kind in ("hex", "binary", "decimal", "bare")

    def peek(self, more: int = 0) -> Token | None:
        return self.tokens[self.at + more] if 0 <= self.at + more < len(self.tokens) else None

    def is_sign(self, signs: str) -> bool:
        token = self.peek()
        return token is not None and token.kind == "sign" and token.text in signs and token.text in self.manner.signs

    def numbers(self) -> list[Number]:
        """All numbers, each with the words that stand around it."""
        found: list[tuple[Number, int, int]] = []
        while self.at < len(self.tokens):
            begin = self.at
            try:
                number = self.total()
            except Unread:
                self.at = begin + 1
                continue
            found.append((number, begin, self.at))
        told = []
        for k, (number, begin, end) in enumerate(found):
            least = found[k - 1][2] if k else 0
            most = found[k + 1][1] if k + 1 < len(found) else len(self.tokens)
            told.append(replace(number, before=self.words(least, begin)[::-1], after=self.words(end, most)))
        return told

    def words(self, begin: int, end: int) -> tuple[str, ...]:
        """The words between two numbers, with commas and the like among them."""
        return tuple(token.text.lower() for token in self.tokens[begin:end])

    def total(self) -> Number:
        if self.is_sign("-+") and self.peek(1) is not None and self.starts_number(1):
            token = self.peek()
            assert token is not None
            is_minus = token.text == "-" and self.is_unary()
            self.at += 1
            first = self.product()
            first = replace(first, value=-first.value) if is_minus else first
        else:
            first = self.product()
        while self.is_sign("+-") and self.starts_number(1):
            token = self.peek()
            assert token is not None
            self.at += 1
            other = self.product()
            first = self.joined(first, other, first.value + (other.value if token.text == "+" else -other.value))
        return first

    def is_unary(self) -> bool:
        """Whether a minus stands before a number, and nothing that ends a list's item."""
        before = self.peek(-1)
        after = self.peek(1)
        return before is None or before.kind in ("equal", "sign") or after is not None and not after.has_blank

    def starts_number(self, more: int) -> bool:
        token = self.peek(more)
        return self.is_number(token) or token is not None and token.text == "(" and "(" in self.manner.signs

    def product(self) -> Number:
        first = self.power()
        while self.is_sign("*/") and self.starts_number(1):
            token = self.peek()
            assert token is not None
            self.at += 1
            other = self.power()
            if token.text == "/" and not other.value:
                raise Unread
            if token.text == "/" and other.kind and not first.kind:    # 9 / 4 ns is (9 / 4) ns
                value = first.value / other.value * other.scale * other.scale
                first = Number(value, Fraction(0), other.kind, other.scale, False, first.text + token.text + other.text)
                continue
            value = first.value * other.value if token.text == "*" else first.value / other.value
            is_power = first.is_plain and other.text.startswith("10^") and token.text == "*"    # 2.5 * 10^-7 is as 2.5e-7
            place = first.place * other.value if is_power else Fraction(0)
            kind = first.kind or other.kind if token.text == "*" else first.kind if first.kind != other.kind else ""
            scale = first.scale if first.kind else other.scale
            first = Number(value, place, kind, scale, is_power, first.text + token.text + other.text)
            first = self.with_unit(first) if is_power else first
        return first

    def power(self) -> Number:
        if self.is_sign("("):
            self.at += 1
            self.depth += 1
            try:
                inner = self.total() if self.depth < MOST_DEEP else None
            finally:
                self.depth -= 1
            if inner is None or not self.is_sign(")"):
                raise Unread
            self.at += 1
            return self.with_unit(replace(inner, text=f"({inner.text})"))
        token = self.peek()
        if token is None or not self.is_number(token):
            raise Unread
        self.at += 1
        first = number_of(token, self.manner.base)
        after = self.peek()
        if after is not None and after.kind == "power":
            self.at += 1
            sign = -1 if self.is_sign("-") else 1
            self.at += 1 if self.is_sign("-+") else 0
            token = self.peek()
            if token is None or token.kind not in ("decimal",
                    "bare") or not token.text.isdecimal() or int(token.text) > MOST_POWER or not first.value:
                raise Unread
            self.at += 1
            raised = first.value ** (sign * int(token.text))
            first = Number(raised, Fraction(0), "", Fraction(1), False, f"{first.text}^{sign * int(token.text)}")
        return self.with_unit(first)

    def with_unit(self, number: Number) -> Number:
        """The number in the base of the unit that follows, or times what a word as million says."""
        token = self.peek()
        if token is None or token.kind != "word":
            return number
        word = token.text.lower()
        if word in SCALES and not (word == "m" and self.manner.unit == "time"):
            self.at += 1
            scale = Fraction(SCALES[word][self.manner.is_binary or self.manner.unit == "size"])
            scaled = replace(number, value=number.value * scale, place=number.place * scale, text=f"{number.text} {token.text}")
            if self.manner.unit == "size" and word in ("k", "m", "g", "ki", "mi", "gi"):
                return replace(scaled, kind="size")
            return self.with_unit(scaled)
        if word not in UNITS:
            return number
        self.at += 1
        kind, factor = UNITS[word]
        return replace(number, value=number.value * factor, place=number.place * factor, kind=kind, scale=factor,
                       text=f"{number.text} {token.text}")

    @staticmethod
    def joined(first: Number, other: Number, value: Fraction) -> Number:
        if first.kind and other.kind and first.kind != other.kind:
            raise Unread
        return Number(value, Fraction(0), first.kind or other.kind, first.scale, False, f"{first.text} {other.text}")


def numbers_of(text: str, manner: Manner) -> list[Number]:
    return Reader(text, manner).numbers()
