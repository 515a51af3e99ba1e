"""Ranges of factors and shifts, and what they make of a deck's stresses, exactly."""
from __future__ import annotations

import re
from dataclasses import dataclass
from typing import Callable

from ..common.spelling import EXACT, MOST_DIGITS, exact, exact_word
from ..common.text import Problem
from .deck import Deck
from .sources import Array

NUMBER = r"[+-]?\d+(?:\.\d+)?(?:[Ee][+-]?\d+)?"
RANGE = re.compile(f"({NUMBER})\\.\\.({NUMBER})")
Change = Callable[[str, str], str]


@dataclass(frozen=True)
class Range:
    """The factors, or the shifts, of the first deck and of the second one, in any order."""

    first: str
    second: str


def range_of(text: str) -> Range:
    """The range of a word LOW..HIGH."""
    found = RANGE.fullmatch(text)
    if not found:
        raise ValueError(text)
    return Range(*found.groups())


@dataclass(frozen=True)
class Stresses:
    """What one of the two decks has of the deck's own stresses: factors of pumping and of recharge, the shift of the
    stages of rivers in length units."""

    wells: str = "1"
    recharge: str = "1"
    stage: str = "0"

    def change(self, deck: Deck) -> None:
        """Changes the stresses of a deck, exactly. A factor of 1 and a shift of 0 leave the numbers' words as they
        are."""
        if exact(self.wells) != 1:
            change_column(deck, "WEL", 0, times, self.wells)
        if exact(self.stage):
            change_column(deck, "RIV", 0, plus, self.stage)
        if exact(self.recharge) != 1 and "RCH" in deck.areal:
            for _, arrays in deck.areal["RCH"].periods:
                if "RECH" in arrays:
                    arrays["RECH"] = scaled(arrays["RECH"], self.recharge)


def change_column(deck: Deck, kind: str, column: int, change: Change, by: str) -> None:
    for entries in deck.lists.get(kind, []):
        for entry in entries or []:
            entry.words[column] = exactly(entry.file, entry.line, change, entry.words[column], by)


def scaled(array: Array, factor: str) -> Array:
    """The array times a factor, with its own factor multiplied out."""
    own = array.factor if not array.is_constant and exact(array.factor) else "1"
    known: dict[str, str] = {}
    for word in array.words:
        if word not in known:
            product = exactly(array.file, array.line, times, word, own)
            known[word] = exactly(array.file, array.line, times, product, factor)
    return Array([known[word] for word in array.words], "1", array.shape, array.file, array.line)


def times(word: str, factor: str) -> str:
    return exact_word(EXACT.multiply(exact(word), exact(factor)))


def plus(word: str, shift: str) -> str:
    return exact_word(EXACT.add(exact(word), exact(shift)))


def exactly(file: str, line: int, change: Change, word: str, by: str) -> str:
    """The changed number; file and line where it can't be written exactly."""
    try:
        return change(word, by)
    except Problem:
        how = "times" if change is times else "plus"
        raise Problem(
            f"{file}, line {line}: {word} {how} {by} can't be written exactly with {MOST_DIGITS} digits and an exponent"
            " from -40 to 40: take fewer digits"
        ) from None
