"""Fortran's formats, by which numbers stand in columns: `(10F8.2)`, `(5X,2F5.0,F8.2)`, `(2(F5.0,I3))`."""
from __future__ import annotations

import functools
import re
from dataclasses import dataclass, field
from typing import Iterator, NamedTuple, Union

from .spelling import NO_LETTER, scaled
from .text import Problem

TOKEN = re.compile(
    r"\s*(?:(?P<times>\d*)(?P<letter>[FEGDI])(?P<width>\d+)(?:\.(?P<places>\d+))?(?:E\d+)?|(?P<skip>\d*)X"
    r"|(?P<power>[+-]?\d+)P|T(?P<column>\d+)|(?P<repeats>\d*)(?P<open>\()|(?P<mark>[),/]))"
)
FREE = ("(FREE)", "(*)")
MOST_PARTS = 10_000


class Field(NamedTuple):
    """A number's columns: the letter, the width, the decimals where it has no point, the scale where no exponent."""

    letter: str
    width: int
    places: int
    scale: int

    def of(self, line: str, at: int) -> str:
        """The word that begins in a column, with its point and exponent where the format says them. Blank is 0."""
        word = line[at : at + self.width].replace(" ", "").strip()
        if not word:
            return "0"
        has_exponent = bool(re.search("[EeDd]", word)) or bool(NO_LETTER.search(word))
        power = -self.places if "." not in word and self.letter != "I" else 0
        if not has_exponent:
            power -= self.scale
        return scaled(word, power) if power else word


class Skip(NamedTuple):
    """Columns that are passed over."""

    width: int


class Column(NamedTuple):
    """The column that comes next, from 0."""

    at: int


class NextLine(NamedTuple):
    """What follows stands on the next line."""


Part = Union[Field, Skip, Column, NextLine]


@dataclass
class Parts:
    """The parts of a format's text; where its last group begins; the scale at its end."""

    rest: str
    scale: int = 0
    parts: list[Part] = field(default_factory=list)
    last_group: int = 0

    def read(self, is_inner: bool = False) -> list[Part]:
        """The parts up to the end of the text, or to the parenthesis that closes a group."""
        out: list[Part] = []
        while self.rest.strip():
            found = TOKEN.match(self.rest)
            if not found:
                raise ValueError
            self.rest = self.rest[found.end() :]
            if found["mark"] == ")":
                if is_inner:
                    return out
                raise ValueError
            if found["open"]:
                begin = len(out)
                out += self.read(True) * int(found["repeats"] or 1)
                self.last_group = self.last_group if is_inner else begin
            elif found["power"]:
                self.scale = int(found["power"])
            else:
                out += self.simple(found)
            if len(out) > MOST_PARTS:
                raise ValueError
        if is_inner:
            raise ValueError
        return out

    def simple(self, found: re.Match) -> list[Part]:
        if found["letter"]:
            it = Field(found["letter"], int(found["width"]), int(found["places"] or 0), self.scale)
            return [it] * int(found["times"] or 1)
        if found["skip"] is not None:
            return [Skip(int(found["skip"] or 1))]
        if found["column"]:
            return [Column(int(found["column"]) - 1)]
        return [NextLine()] if found["mark"] == "/" else []


class Format(NamedTuple):
    """The parts of a format, and those with which it begins again on a new line where more numbers are due: its last
    group with all that follows, or the whole."""

    parts: tuple[Part, ...]
    again: tuple[Part, ...]

    def all_parts(self) -> Iterator[Part | None]:
        """The parts, again and again; None where the format ends."""
        yield from self.parts
        while True:
            yield None
            yield from self.again


@functools.lru_cache
def format_of(text: str) -> Format | None:
    """The format that a text means, None for (FREE)."""
    if text.upper() in FREE:
        return None
    inner = re.fullmatch(r"\s*\((.*)\)\s*", text.upper())
    try:
        first = Parts(inner[1] if inner else "?")
        parts = first.read()
        # The scale at the end of a format stays where it begins again.
        again = Parts(inner[1] if inner else "?", first.scale).read()[first.last_group :]
        if not any(isinstance(part, Field) for part in again):
            raise ValueError
    except ValueError:
        raise Problem(f"the format {text} isn't of numbers in columns, as (10F8.2) or (5X,2F5.0,F8.2)") from None
    return Format(tuple(parts), tuple(again))
