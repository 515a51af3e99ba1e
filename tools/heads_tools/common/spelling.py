"""Numbers and words as the programs of the MODFLOW family spell them, and as `heads` reads them."""
from __future__ import annotations

import functools
import re
from decimal import Context, Decimal, DivisionByZero, Inexact, InvalidOperation, localcontext
from typing import NamedTuple

from .text import Problem

EXACT = Context(prec=400)
MOST_DIGITS = 18
NUMBER = re.compile(r"[+-]?(\d+\.?\d*|\.\d+)([EeDd]?[+-]?\d+)?")
# A number of few digits, whose exponent is within the limits wherever its zeros stand.
SHORT = re.compile(r"[+-]?(\d{1,9})(?:\.(\d{0,9}))?(?:[EeDd][+-]?[0-2]?\d)?")
NO_LETTER = re.compile(r"(?<=[0-9.])([+-]\d+)$")


class Number(NamedTuple):
    """A number as `heads` reads it: its text, what was changed (or nothing), its significant digits."""

    text: str
    change: str
    digits: int


def quoted_words(line: str) -> list[str]:
    """The words of a line as MODFLOW parts them: a text in quotes is one word."""
    if "'" not in line and '"' not in line:
        return line.replace(",", " ").split()
    return [a or b or c for a, b, c in re.findall(r"'([^']*)'|\"([^\"]*)\"|([^\s,'\"]+)", line)]


def record_words(line: str) -> list[str]:
    """The words of an array's record, in which a format in parentheses is one word, its commas included."""
    shielded = re.sub(r"\([^()]*(\([^()]*\)[^()]*)*\)", lambda m: re.sub(r"\s", "", m[0]).replace(",", "\x00"), line)
    return [w.replace("\x00", ",") for w in quoted_words(shielded)]


@functools.lru_cache(maxsize=1 << 18)
def number(word: str) -> Number:
    """The number of a word, written so that `heads` reads the same value (rounded only past 18 digits)."""
    if short := SHORT.fullmatch(word):
        return Number(word, "", len("".join(short.groups("")).strip("0")) or 1)
    if not NUMBER.fullmatch(word):
        raise Problem(f"`{word}` is no number")
    text, change = word, ""
    if not re.search("[EeDd]", word) and NO_LETTER.search(word):
        text = NO_LETTER.sub(r"E\1", word)
        change = f"`{word}` written as {text}"
    value = EXACT.create_decimal(re.sub("[dD]", "E", text)).normalize(EXACT)
    digits = len(value.as_tuple().digits) if value else 1
    if digits > MOST_DIGITS or len(text) > 64:
        value = Context(prec=MOST_DIGITS).plus(value).normalize(EXACT) if digits > MOST_DIGITS else value
        text = f"{value:e}"
        change = f"`{word}` rounded to 18 digits: {text}" if digits > MOST_DIGITS else f"`{word}` written as {text}"
    exponent = exponent_of(value) if value else 0
    if not -40 <= exponent <= 40:
        raise Problem(f"`{word}`: the exponent lies outside -40 to 40")
    return Number(text, change, digits)


def exponent_of(value: Decimal) -> int:
    """The exponent of a number's last digit."""
    return int(value.as_tuple().exponent)


def scaled(word: str, power: int) -> str:
    """The number of a word times 10^power, exactly."""
    return number(f"{EXACT.scaleb(exact(word), power).normalize(EXACT):e}").text


def exact(word: str) -> Decimal:
    """The value of a number's word."""
    return EXACT.create_decimal(re.sub("[dD]", "E", number(word).text))


def product(a: str, b: str) -> Number:
    """The product of two numbers' words."""
    value = EXACT.multiply(exact(a), exact(b)).normalize(EXACT)
    return number(f"{value:e}" if value else "0")


def exact_word(value: Decimal, what: str = "a number") -> str:
    """The word of a number of at most 18 digits, without an exponent where it is short so."""
    value = value.normalize(EXACT)
    if not value:
        return "0"
    if len(value.as_tuple().digits) > MOST_DIGITS:
        raise Problem(f"{what} is {value:.24g}.., which has more than {MOST_DIGITS} digits: no deck says it exactly")
    plain = f"{value:f}"
    return number(plain if len(plain) <= MOST_DIGITS + 3 else f"{value:e}").text


def exact_quotient(a: Decimal, b: Decimal) -> Decimal | None:
    """One number over another, where a decimal of at most 18 digits says it."""
    with localcontext(Context(prec=MOST_DIGITS, traps=[Inexact, DivisionByZero, InvalidOperation])):
        try:
            return a / b
        except (Inexact, DivisionByZero, InvalidOperation):
            return None
