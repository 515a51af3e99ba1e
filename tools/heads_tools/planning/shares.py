"""What rivers, drains, evapotranspiration and general heads are in the difference of two plans: branches to a head of
0, whose conductance is a share of their own. It is bounded by where the heads of both plans stand, in whole numbers."""
from __future__ import annotations

from dataclasses import dataclass
from fractions import Fraction
from typing import Iterator

import numpy as np

from ..common.spelling import MOST_DIGITS, exact
from ..common.text import Problem
from ..deck.deck import Deck
from ..deck.sources import Array
from ..listing.listing import Listing
from .plan_decks import Spelled

Cell = tuple[int, int, int]
Ends = tuple[int, int]
Part = tuple[Fraction, Fraction]
# Conductances are whole numbers of 10^-18, heads and elevations of 10^-9.
PLACES, HEAD_PLACES = 18, 9
NONE, ALL = Fraction(0), Fraction(1)
TERMS = {"RIV": "RIVER LEAKAGE", "DRN": "DRAINS", "EVT": "ET", "GHB": "HEAD DEP BOUNDS"}


@dataclass(frozen=True)
class Branch:
    """A branch of the difference to a head of 0: its cell, its budget term, the least and the greatest conductance, and
    the bounds of their share of the whole, which is all of it for a general head."""

    cell: Cell
    term: str
    low: int
    high: int
    part: Part = (ALL, ALL)


@dataclass
class Heads:
    """The least and the greatest head of each cell with flow over some steps, in both plans."""

    base: tuple[np.ndarray, np.ndarray]
    plan: tuple[np.ndarray, np.ndarray]
    places: np.ndarray

    def corners(self, cell: Cell) -> tuple[Ends, Ends]:
        """The least heads of the two plans, and the greatest."""
        at = self.places[cell[0] - 1, cell[1] - 1, cell[2] - 1]
        low, high = ((int(self.base[n][at]), int(self.plan[n][at])) for n in (0, 1))
        return low, high


def heads_of(base: Listing, plan: Listing, period: int, numbers: tuple[int, ...]) -> Heads:
    """The heads at the ends of some steps of a period, all counted from 1, of two listings of the same cells."""
    hulls = []
    for listing in (base, plan):
        steps = [step for step in listing.steps if step.period == period and step.step in numbers]
        hulls.append((np.min([s.low for s in steps], axis=0), np.max([s.high for s in steps], axis=0)))
    return Heads(hulls[0], hulls[1], base.places)


def share(foot: int, heads: Ends) -> Fraction:
    """The part of the way between two heads that lies above a foot. It rises in both heads, and falls in the foot."""
    below, above = min(heads), max(heads)
    return ALL if below >= foot else NONE if above <= foot else Fraction(above - foot, above - below)


def ramp(heads: Heads | None, cell: Cell, feet: Ends) -> Part:
    """Bounds of the share above a foot: at the least heads and the highest foot, at the greatest and the lowest."""
    if heads is None:
        return NONE, ALL
    low, high = heads.corners(cell)
    return share(feet[1], low), share(feet[0], high)


def topped(heads: Heads | None, cell: Cell, extinction: Ends, surface: Ends) -> Part:
    """The same for evapotranspiration: the share above its extinction elevation less that above its surface."""
    if heads is None:
        return NONE, ALL
    above, over = ramp(heads, cell, extinction), ramp(heads, cell, surface)
    return max(NONE, above[0] - over[1]), min(ALL, max(NONE, above[1] - over[0]))


def whole(values: tuple[Fraction, Fraction], places: int) -> Ends:
    """The whole numbers of 10^-places that enclose two numbers, in either order."""
    low, high = (side(values) * 10**places for side in (min, max))
    return low.numerator // low.denominator, -(-high.numerator // high.denominator)


def branch(cell: Cell, kind: str, conductances: tuple[Fraction, Fraction], part: Part = (ALL, ALL)) -> Branch:
    low, high = whole(conductances, PLACES)
    least = low * part[0].numerator // part[0].denominator
    greatest = -(-high * part[1].numerator // part[1].denominator)
    return Branch(cell, TERMS[kind], rounded(least, -1), rounded(greatest, 1), part)


def rounded(units: int, side: int) -> int:
    """A whole number of at most 18 digits but for zeros at its end: down (side -1) or up (1)."""
    unit = 10 ** max(0, len(str(units)) - MOST_DIGITS)
    return units // unit * unit if side < 0 else -(-units // unit) * unit


def word_of(units: int) -> str:
    """A conductance as a deck has it."""
    digits = str(units).rstrip("0")
    return f"{digits}E{len(str(units)) - len(digits) - PLACES}" if digits else "0"


class Weather:
    """All branches at cells with flow, in every weather between two decks."""

    def __init__(self, low: Spelled, high: Spelled):
        self.low, self.high = low, high
        self.active = np.array([array.floats() != 0 for array in low.deck.ibound])

    def branches(self, period: int, heads: Heads | None) -> list[Branch]:
        """The branches of a period, counted from 0, where the heads of both plans lie between some bounds; without
        heads, wherever they lie."""
        found = [each for kind in ("GHB", "RIV", "DRN") for each in self.of_list(kind, period, heads)]
        return found + list(self.of_evapotranspiration(period, heads) if "EVT" in self.low.deck.areal else [])

    def of_list(self, kind: str, period: int, heads: Heads | None) -> Iterator[Branch]:
        foot = {"RIV": 2, "DRN": 0}.get(kind)
        entries = self.low.entries(kind)[period], self.high.entries(kind)[period]
        if [each.cell for each in entries[0]] != [each.cell for each in entries[1]]:
            raise Problem(f"{self.high.name} has entries of {kind} at other cells than {self.low.name}")
        for one, two in zip(*entries):
            if self.has_flow(one.cell):
                numbers = [(exact_fraction(a), exact_fraction(b)) for a, b in zip(one.words, two.words)]
                part = (ALL, ALL) if foot is None else ramp(heads, one.cell, whole(numbers[foot], HEAD_PLACES))
                yield branch(one.cell, kind, numbers[1], part)

    def of_evapotranspiration(self, period: int, heads: Heads | None) -> Iterator[Branch]:
        """EVTR DELR DELC / EXDP between the surface and the extinction elevation, at the cell that the option names."""
        deck = self.low.deck
        one, two = (arrays_of(each.deck, period) for each in (self.low, self.high))
        for at in range(deck.nrow * deck.ncol):
            row, col = divmod(at, deck.ncol)
            layer = layer_of(deck.areal["EVT"].option, one, self.active[:, row, col], at)
            rates, surfaces, depths = (
                (Fraction(one[name].exact(at)), Fraction(two[name].exact(at))) for name in ("EVTR", "SURF", "EXDP")
            )
            cell, depth = (layer, row + 1, col + 1), depths[0]
            if not any(rates) or not layer or not self.has_flow(cell):
                continue
            if depths[1] != depth or depth <= 0:
                raise Problem(f"EXDP at row {row + 1} column {col + 1} isn't above 0 and the same in all decks")
            area = Fraction(deck.delr.exact(col)) * Fraction(deck.delc.exact(row))
            extinctions = whole((surfaces[0] - depth, surfaces[1] - depth), HEAD_PLACES)
            part = topped(heads, cell, extinctions, whole(surfaces, HEAD_PLACES))
            yield branch(cell, "EVT", (rates[0] * area / depth, rates[1] * area / depth), part)

    def has_flow(self, cell: Cell) -> bool:
        return bool(self.active[cell[0] - 1, cell[1] - 1, cell[2] - 1])


def exact_fraction(word: str) -> Fraction:
    return Fraction(exact(word))


def arrays_of(deck: Deck, period: int) -> dict[str, Array]:
    """The arrays of EVT that hold in a period."""
    out: dict[str, Array] = {}
    for _, new in deck.areal["EVT"].periods[: period + 1]:
        out |= new
    return out


def layer_of(option: int, arrays: dict[str, Array], active: np.ndarray, at: int) -> int:
    """The layer, from 1, that evapotranspiration takes from in a column of cells; 0 where there is none."""
    if option == 2:
        return int(arrays["IEVT"].exact(at))
    return 1 if option == 1 else int(active.argmax()) + 1 if active.any() else 0
