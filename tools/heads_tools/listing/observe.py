"""Heads at observation points: lower and upper head beside the measured one, rounded outward to 10^-9.

The head of a point is a sum of the heads of cells with exact weights (between.py), and within a transient step it lies
on the straight line from the step's begin to its end. If every exact solution lies between the listed heads, then its
head at the point, made in the same way, lies between lower and upper; so does a drawdown between those of a plan's
listing. Nothing is claimed of the ground between the middles of the cells."""
from __future__ import annotations

import csv
import io
import math
from dataclasses import dataclass, replace
from datetime import date
from fractions import Fraction
from functools import cached_property
from pathlib import Path
from typing import Callable

from ..common.text import Problem, counted, decimal_text, down, up
from ..deck.dates import date_text
from ..deck.model import Model, exact_ends
from ..deck.places import Place
from .listing import UNITS_IN_ONE, Cell, Listing, Step
from .plan_listing import PARTS, WHAT, PlanListing
from .points import Point, Points

HEADER = "name layer row col time lower upper measured measured_less_upper measured_less_lower cells".split()
NEARLY = Fraction(1, 10**9)
Range = tuple[Fraction, Fraction]
Pair = tuple[int, int]


@dataclass(frozen=True)
class Observation:
    """A point at a time: its pair of heads in 10^-9, None where it has none. `beside`: of a plan's listing the pairs of
    the other parts that are asked for."""

    point: Point
    time: Fraction
    pair: Pair | None = None
    beside: tuple[Pair | None, ...] = ()

    @property
    def less(self) -> tuple[int, int] | None:
        """What was measured less the upper and less the lower head, outward, in 10^-9."""
        if self.pair is None or self.point.measured is None:
            return None
        units = self.point.measured * UNITS_IN_ONE
        return math.floor(units - self.pair[1]), math.ceil(units - self.pair[0])

    @property
    def is_impossible(self) -> bool:
        """Whether no exact solution has the head that was measured."""
        return self.less is not None and (self.less[0] > 0 or self.less[1] < 0)

    def row(self) -> list[str]:
        """The row of the table."""
        point, heads, less = self.point, pair_words(self.pair), ["", ""]
        if self.less is not None:
            less = [decimal_text(each, 9) for each in self.less]
        measured = "" if point.measured is None else f"{float(point.measured):.12g}"
        cell = map(str, point.cell) if point.cell else ["", "", ""]
        others = (word for pair in self.beside for word in pair_words(pair))
        ends = [*heads, measured, *less, str(len(point.weights)), *others]
        return [point.name, *cell, f"{float(self.time):.12g}", *ends]


def pair_words(pair: Pair | None) -> list[str]:
    return ["", ""] if pair is None else [decimal_text(each, 9) for each in pair]


@dataclass
class Observer:
    """A listing and its model, whose heads are looked at between cells and between the ends of steps. The first step
    begins at STRT of the model and of the other deck, if there is one; a difference begins at 0. `beside`: those of
    other parts of a plan's listing, with the same steps."""

    listing: Listing
    model: Model
    other: Model | None = None
    beside: tuple[Observer, ...] = ()

    @cached_property
    def ends(self) -> list[Fraction]:
        """The time at the end of each step of the listing, exactly."""
        known = exact_ends(self.model.deck)
        return [known[s.period, s.step] for s in self.listing.steps]

    def step_of(self, point: Point) -> int:
        """The place of the step in which a point's time lies. A time that is an end but for its last digits is that
        end."""
        assert point.time is not None
        if point.time < 0:
            raise Problem(f"time {float(point.time):g} lies before the start")
        if point.time > self.ends[-1] * (1 + NEARLY):
            raise Problem(f"time {float(point.time):g} lies after the listing's last step, {float(self.ends[-1]):g}")
        return next((n for n, end in enumerate(self.ends) if point.time <= end * (1 + NEARLY)), len(self.ends) - 1)

    def at_end(self, point: Point, step: Step) -> Range:
        """The head at the end of a step."""

        def ends(cell: Cell) -> Range:
            at = self.listing.at(cell)
            return Fraction(int(step.low[at])), Fraction(int(step.high[at]))

        return summed(point, ends)

    def at_start(self, point: Point) -> Range:
        """The head before the first step."""
        return summed(point, self.start_of)

    def start_of(self, cell: Cell) -> Range:
        if self.listing.is_change:
            return Fraction(0), Fraction(0)
        k, i, j = cell
        decks = [model.deck for model in (self.model, self.other) if model]
        heads = [Fraction(deck.strt[k - 1].exact((i - 1) * deck.ncol + j - 1)) * UNITS_IN_ONE for deck in decks]
        return min(heads), max(heads)

    def head(self, point: Point, n: int) -> tuple[int, int]:
        """The pair of a point in step n, in 10^-9: at the point's time where the step is transient, else at its end."""
        step = self.listing.steps[n]
        low, high = self.at_end(point, step)
        end, is_steady = self.ends[n], self.model.deck.periods[step.period - 1].is_steady
        if point.time is not None and point.time < end * (1 - NEARLY) and not is_steady:
            begin = self.ends[n - 1] if n else Fraction(0)
            old = self.at_end(point, self.listing.steps[n - 1]) if n else self.at_start(point)
            share = (max(point.time, begin) - begin) / (end - begin)
            low, high = ((1 - share) * a + share * b for a, b in zip(old, (low, high)))
        return math.floor(low), math.ceil(high)

    def at(self, point: Point, time: Fraction, n: int) -> Observation:
        """A point in step n, with a head where it has weights."""
        pair, *beside = (each.head(point, n) if point.weights else None for each in (self, *self.beside))
        return Observation(point, time, pair, tuple(beside))

    def of_point(self, point: Point) -> list[Observation]:
        """A point at its time, else at the end of each step. One whose time lies outside of the listing has no head."""
        if point.time is None:
            return [self.at(point, time, n) for n, time in enumerate(self.ends)]
        try:
            return [self.at(point, point.time, self.step_of(point))]
        except Problem as error:
            return [self.at(replace(point, weights={}, why=str(error)), point.time, 0)]


def summed(point: Point, range_of: Callable[[Cell], Range]) -> Range:
    """The sum of the ranges of a point's cells: each weight takes the bound that is on its side."""
    low = high = Fraction(0)
    for cell, weight in point.weights.items():
        bounds = range_of(cell)[:: 1 if weight > 0 else -1]
        low, high = low + bounds[0] * weight, high + bounds[1] * weight
    return low, high


@dataclass
class Observed:
    """The points of a file with their heads; the date of the model's start, where times were given as dates. `what`:
    what was measured; `beside`: of a plan's listing the names of the other parts that are asked for."""

    observations: list[Observation]
    model: Model
    start: date | None = None
    what: str = "head"
    beside: tuple[str, ...] = ()

    def table(self) -> str:
        """The table as CSV, with a date at each line's end where the file had dates."""
        text, itmuni = io.StringIO(), self.model.deck.itmuni
        writer = csv.writer(text, lineterminator="\n")
        others = [f"{name.lower()}_{side}" for name in self.beside for side in ("lower", "upper")]
        writer.writerow(HEADER + others + ["date"] * (self.start is not None))
        for each in self.observations:
            writer.writerow(each.row() + [date_text(self.start, each.time, itmuni)] * (self.start is not None))
        return text.getvalue()

    def lacking(self) -> list[str]:
        """A sentence on each point that has no head, and on what was measured in all."""
        points = [each.point for each in self.observations]
        return list(dict.fromkeys(f"{p.name} has no head: {p.why}" for p in points if p.why)) + self.residuals()

    def residuals(self) -> list[str]:
        """What was measured less the heads, in all: between which numbers the mean and the root of the mean square of
        every exact solution lie, and how many heads no exact solution has."""
        pairs = [each.less for each in self.observations if each.less is not None]
        if not pairs:
            return []
        count = len(pairs)
        sums = [sum(side) for side in zip(*pairs)]
        mean = math.floor(Fraction(sums[0], count)), math.ceil(Fraction(sums[1], count))
        least = sum(max(low, -high, 0) ** 2 for low, high in pairs)
        most = sum(max(abs(low), abs(high)) ** 2 for low, high in pairs)
        root = math.isqrt(least // count), math.isqrt(-(-most // count)) + 1
        outside = sum(each.is_impossible for each in self.observations)
        return [
            f"Measured less {self.what}, {counted(count, 'value')}: mean {down(mean[0], 9)} to {up(mean[1], 9)}, root"
            f" of the mean square {down(root[0], 9)} to {up(root[1], 9)}; {outside} of {count} measured"
            f" {'drawdowns' if self.what == WHAT['DRAWDOWN'] else 'heads'} are of no exact solution"
        ]


def observe(
    listing: Listing,
    model: Model,
    path: Path,
    place: Place = Place(),
    is_between: bool = False,
    start: date | None = None,
) -> Observed:
    """The points of a file, a table or a HOB file, with their heads."""
    file = Points(path, listing, model, place, is_between, start)
    observations = observed(file, Observer(listing, model))
    return Observed(observations, model, start if file.has_dates else None)


def observe_plan(
    listing: PlanListing, model: Model, other: Model | None, file: Points, parts: tuple[str, ...] = PARTS[:1]
) -> Observed:
    """The points of a file with what a plan's listing says of them. What was measured is that of the first of the
    parts; the pairs of the others stand beside it. `other`: the second deck, where there is one."""
    named = dict(zip(PARTS, listing.parts))
    beside = tuple(Observer(named[part], model, other) for part in parts[1:])
    observations = observed(file, Observer(named[parts[0]], model, other, beside))
    if file.has_heads and parts[0] == "DRAWDOWN":
        raise Problem(f"{file.path} is a HOB file, which has heads: drawdowns that were measured stand in a table")
    return Observed(observations, model, file.start if file.has_dates else None, WHAT[parts[0]], parts[1:])


def observed(file: Points, observer: Observer) -> list[Observation]:
    """The points of a file with their heads. It is refused where none has one."""
    observations = [each for point in file.read() for each in observer.of_point(point)]
    if observations and all(each.point.why for each in observations):
        raise Problem(f"{file.path}: no point has a head; {observations[0].point.name}: {observations[0].point.why}")
    return observations
