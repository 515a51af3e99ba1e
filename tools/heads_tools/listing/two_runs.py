"""Whether the heads of two runs, without a plan's wells and with them, lie inside a plan's listing, and their
difference inside its drawdown. It is decided exactly: a head is the number that a double is."""
from __future__ import annotations

from dataclasses import dataclass
from fractions import Fraction
from typing import Iterator, Mapping

import numpy as np

from ..common.text import Problem, counted, short_down
from .compare import demand_grid, padded
from .headfile import ANY_STEP
from .listing import UNITS_IN_ONE, Cell, Listing, Step
from .plan_listing import PARTS, PlanListing

Heads = Mapping[tuple[int, int], np.ndarray]
# What a double may be off by in 10^-9 when it is compared with a whole number, in parts of the greater of the two.
NEAR = 8 * float(np.finfo(np.longdouble).eps)


@dataclass
class Found:
    """Of a part of a plan's listing: how many numbers it has, how many were given, how many of these lie outside of
    their pair by more than is allowed, and the one that lies furthest outside (in length units), if any does."""

    part: str
    count: int = 0
    given: int = 0
    outside: int = 0
    furthest: Fraction = Fraction(0)
    place: tuple[Step, Cell] | None = None

    def sentence(self, unit: str) -> str:
        if not self.outside:
            rest = f"; the listing has {self.count}" if self.given < self.count else ""
            return f"{self.part}: all of {counted(self.given, 'given number')} lie inside{rest}"
        assert self.place is not None
        step, cell = self.place
        return (
            f"{self.part}: {self.outside} of {counted(self.given, 'given number')} lie outside, the furthest by"
            f" {short_down(float(self.furthest) * (1 - 2**-50))} {unit} or more at layer row column"
            f" {' '.join(map(str, cell))}, period {step.period} step {step.step}"
        )


def inside_plan(listing: PlanListing, base: Heads, planned: Heads, within: Fraction = Fraction(0)) -> list[Found]:
    """What was found of the three parts. `within`: how far outside of its pair a number may lie."""
    for heads in (base, planned):
        demand_grid(listing.drawdown, heads)
    out = [Found(part) for part in PARTS]
    for n, step in enumerate(listing.drawdown.steps):
        given = [at_step(listing.drawdown, heads, step) for heads in (base, planned)]
        for found, part, runs in zip(out, listing.parts, (given[:1], given[1:], given)):
            found.count += len(part.cells)
            known = [each for each in runs if each is not None]
            if len(known) == len(runs):
                look(found, part, part.steps[n], known, within)
    for found in out:
        if not found.given:
            why = "the runs have no heads of the listing's cells at its periods and steps"
            raise Problem(f"{why}, as {found.part} needs")
    return out


def at_step(listing: Listing, heads: Heads, step: Step) -> np.ndarray | None:
    """A run's heads of the listing's cells at a step, nan where none is given; None where the step has none."""
    grid = heads.get((step.period, step.step), heads.get(ANY_STEP))
    return None if grid is None else padded(grid, listing.shape)[tuple((listing.cells - 1).T)]


def look(found: Found, part: Listing, step: Step, runs: list[np.ndarray], within: Fraction) -> None:
    """Adds what is found at the cells of a step. Most numbers lie so far inside that doubles show it."""
    units = [run.astype(np.longdouble) * UNITS_IN_ONE for run in runs]
    values = units[0] if len(units) == 1 else units[0] - units[1]
    here = ~np.isnan(values)
    found.given += int(here.sum())
    size = np.maximum.reduce([np.abs(each) for each in [*units, step.low, step.high]])
    room = NEAR * size
    surely = (values - step.low > room) & (step.high - values > room)
    for at in np.flatnonzero(here & ~surely).tolist():
        head, *other = (Fraction(float(run[at])) for run in runs)
        exact = head - other[0] if other else head
        off = max(Fraction(int(step.low[at]), UNITS_IN_ONE) - exact, exact - Fraction(int(step.high[at]), UNITS_IN_ONE))
        found.outside += off > within
        if off > max(within, found.furthest):
            found.furthest, found.place = off, (step, part.cell(at))


def sentences(found: list[Found], unit: str) -> Iterator[str]:
    """What was found of each part."""
    return (each.sentence(unit) for each in found)


def told(found: list[Found], is_span: bool, within: str) -> str:
    """What it tells of exact heads, where the listing holds. `within`: how far outside counts as inside, if any way."""
    weather = "one weather between the two decks" if is_span else "the deck's weather"
    if any(each.outside for each in found):
        return (
            f"OUTSIDE: no exact heads of both plans in {weather} are these. Either the runs are off by so much, or"
            " their decks are others"
        )
    return (
        f"INSIDE{f', to {within}' if within else ''}: the exact heads of both plans in {weather} and their differences"
        " lie inside, too. How far these runs are off isn't said"
    )
