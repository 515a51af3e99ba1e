"""What the steps of a model with convertible layers are made of beside their heads."""
from __future__ import annotations

from dataclasses import dataclass
from fractions import Fraction
from functools import cached_property
from typing import Iterator

import numpy as np

from ..numbers.equations import Given, given_heads
from ..numbers.whole import HEAD_PLACES, Pair, constant_head, pair_of, pair_of_heads, step_length
from .convertible import Convertible, Heads, Stored


@dataclass
class StepData:
    """A step: its period and number from 1, its length (None of a steady one), the cells with constant heads and those
    heads rounded down and up, the variable cells, and the entries of CHD so far."""

    water: Convertible
    period: int
    number: int
    length: Fraction | None
    is_constant: np.ndarray
    constant: Pair
    is_variable: np.ndarray
    given: Given

    @property
    def per_time(self) -> float:
        return float(1 / self.length) if self.length else 0.0

    @cached_property
    def stored(self) -> Stored | None:
        """The step's storage, none of a steady one."""
        return self.water.stored(self.length) if self.length else None

    @property
    def name(self) -> str:
        return f"period {self.period} step {self.number}"


def steps_of(water: Convertible) -> Iterator[StepData]:
    """All steps of a model, one after another."""
    model = water.model
    given: Given = {}
    strt, ibound = pair_of_heads(model.deck.strt), model.ibound.ravel()
    for p, period in enumerate(model.deck.periods):
        given = given_heads(model, p, given)
        is_constant = (ibound < 0) | ((ibound > 0) & np.isin(np.arange(ibound.size), list(given)))
        is_variable = (ibound > 0) & ~is_constant
        for number in range(1, period.nstp + 1):
            constant = strt[0].copy(), strt[1].copy()
            for cell, (entry, is_now) in given.items():
                units = pair_of(constant_head(model, p + 1, number, entry, is_now), HEAD_PLACES)
                constant[0][cell], constant[1][cell] = units
            length = None if period.is_steady else step_length(model, p + 1, number)
            yield StepData(water, p + 1, number, length, is_constant, constant, is_variable, given)


@dataclass
class Found:
    """The heads of a step."""

    low: Heads
    high: Heads
    terms: dict[str, list[int]]
