"""Numbers of MODFLOW 6's files as decimals that a deck can have: none is rounded."""
from __future__ import annotations

import functools
import re
from decimal import Decimal
from fractions import Fraction

from ..common.spelling import EXACT, MOST_DIGITS, exact, number
from ..common.text import Problem

PLACES = 20


@functools.lru_cache(maxsize=1 << 18)
def number_word(word: str) -> str:
    """A number's word as `heads` reads it, with the same value."""
    try:
        seen = number(word)
    except Problem as error:
        is_name = re.match(r"[A-Za-z_]", word) and word.lower() not in ("nan", "inf", "infinity")
        raise Problem(f"`{word}` is no number (of a time series?)" if is_name else str(error)) from None
    if seen.digits > MOST_DIGITS:
        raise Problem(f"`{word}` has {seen.digits} digits; {MOST_DIGITS} are read")
    return seen.text


def whole(word: str, what: str) -> int:
    """A whole number."""
    if not re.fullmatch(r"[+-]?\d{1,9}", word):
        raise Problem(f"{what} is `{word}`, where a whole number is due")
    return int(word)


def word_of(value: Decimal, what: str) -> str:
    """An exact number as a word."""
    value = value.normalize(EXACT)
    digits = len(value.as_tuple().digits)
    if digits > MOST_DIGITS:
        raise Problem(f"{what} has {digits} digits; {MOST_DIGITS} are read")
    text = f"{value:f}" if value else "0"
    return number_word(text if len(text) <= PLACES else f"{value:e}")


@functools.lru_cache(maxsize=1 << 18)
def product_word(a: str, b: str, what: str) -> str:
    """The product of two numbers' words."""
    a, b = number_word(a), number_word(b)
    return a if exact(b) == 1 else word_of(EXACT.multiply(exact(a), exact(b)), what)


@functools.lru_cache(maxsize=1 << 18)
def sum_word(a: str, b: str, what: str) -> str:
    """The sum of two numbers' words."""
    return word_of(EXACT.add(exact(number_word(a)), exact(number_word(b))), what)


@functools.lru_cache(maxsize=1 << 18)
def quotient_word(a: str, b: str, what: str) -> str:
    """One number over another, where a decimal says it."""
    value = Fraction(exact(number_word(a))) / Fraction(exact(number_word(b)))
    rest = value.denominator
    for prime in (2, 5):
        while rest % prime == 0:
            rest //= prime
    if rest != 1:
        raise Problem(f"{what} is {value}, which no decimal says exactly")
    return word_of(EXACT.divide(Decimal(value.numerator), Decimal(value.denominator)), what)


def value_of(word: str) -> Decimal:
    """The value of a number's word."""
    return exact(number_word(word))
