"""Models between two that are alike, as the definitions' values: numbers of stresses and STRT are drawn anew."""
from __future__ import annotations

from fractions import Fraction
from random import Random
from typing import Any, Callable

from .bench import exact
from .values import Made, changed, record

HALVES = (0, 0, 1, 2, 2)
ENTRY = {"wells": "Well", "rivers": "River", "drains": "Drain", "generals": "General"}


def decimal(number: Fraction) -> Any:
    """The canonical record of a number of a file, which has finitely many places."""
    places = 0
    while number.denominator != 1:
        number, places = number * 10, places + 1
    digits, exponent = abs(number.numerator), -places
    while digits and digits % 10 == 0:
        digits, exponent = digits // 10, exponent + 1
    return record(digits=digits, exp=exponent if digits else 0, neg=number < 0)


class Drawn:
    """Draws between two numbers: an end, or the middle."""

    def __init__(self, draw: Random):
        self.draw = draw

    def part(self) -> Fraction:
        return Fraction(self.draw.choice(HALVES), 2)

    def number(self, a: Any, b: Any, part: Any = None) -> Any:
        return decimal(exact(a) + (exact(b) - exact(a)) * (self.part() if part is None else part))

    def numbers(self, a: tuple[Any, ...], b: tuple[Any, ...]) -> tuple[Any, ...]:
        return tuple(map(self.number, a, b))

    def entry(self, a: Made, b: Made) -> Made:
        """An entry of a list: its cell, and numbers."""
        return Made(a.name, (a.arguments[0], *map(self.number, a.arguments[1:], b.arguments[1:])))

    def given(self, a: Any, b: Any) -> Any:
        """An entry of CHD: both heads lie as far from the first deck's."""
        part = self.part()
        return changed(a, shead=self.number(a.v_shead, b.v_shead, part), ehead=self.number(a.v_ehead, b.v_ehead, part))

    def period(self, a: Any, b: Any) -> Any:
        one, two = a.v_stresses, b.v_stresses
        each: dict[str, Callable[[Any, Any], Any]] = {name: self.entry for name in ENTRY}
        each |= {"given": self.given, "recharge": self.number, "surf": self.number, "evtr": self.number}
        new = {
            name: tuple(map(draw, getattr(one, f"v_{name}"), getattr(two, f"v_{name}"))) for name, draw in each.items()
        }
        return changed(a, stresses=changed(one, **new))

    def model(self, a: Any, b: Any) -> Any:
        periods = tuple(map(self.period, a.v_periods, b.v_periods))
        return changed(a, strt=self.numbers(a.v_strt, b.v_strt), periods=periods)
