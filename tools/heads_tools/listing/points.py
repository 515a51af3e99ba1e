"""Observation points of a table or of a HOB file: weights of cells, time, and what was measured there."""
from __future__ import annotations

import csv
import math
from dataclasses import dataclass, field, replace
from datetime import date
from fractions import Fraction
from pathlib import Path

import numpy as np

from ..common.spelling import quoted_words
from ..common.text import Problem, read_text
from ..deck.dates import is_date, time_since
from ..deck.model import Model, exact_value
from ..deck.places import Place
from .between import HALF, Cell, Spot, Weights, mixed, weights_of
from .listing import Listing

ONE = Fraction(1)
MOST_OFF_ONE = Fraction(2, 100)


@dataclass
class Point:
    """An observation: the cell that it is told of (None: outside the grid), the time since the start (None: every
    step), what was measured (None: nothing), the weights of the cells that its head is made of (none: `why` it has no
    head); `weight`: that of the measurement in a calibration."""

    name: str
    cell: Cell | None
    time: Fraction | None
    measured: Fraction | None
    weights: Weights = field(default_factory=dict)
    why: str = ""
    weight: float = 1.0


@dataclass
class Points:
    """A file of points, read for a listing and its model. `is_between`: points of a map lie between the middles of
    cells, and aren't those of their cell. `start`: the date on which the model starts. `has_dates`: some time of the
    file is a date; `has_heads`: it is a HOB file, whose measurements are heads."""

    path: Path
    listing: Listing
    model: Model
    place: Place = Place()
    is_between: bool = False
    start: date | None = None
    has_dates: bool = False
    has_heads: bool = False

    def read(self) -> list[Point]:
        """The points of a table with a header (name, x, y or row, col; layer, time, measured may lack) or of a HOB
        file."""
        lines = [
            (n, line)
            for n, line in enumerate(text_of(self.path).splitlines(), 1)
            if line.strip() and not line.startswith("#")
        ]
        if not lines:
            raise Problem(f"{self.path} has no line")
        comma = ";" if ";" in lines[0][1] else ","
        header = [w.strip().strip('"').lower() for w in lines[0][1].split(comma)]
        if {"x", "y"} <= set(header) or {"row", "col"} <= set(header):
            rows = csv.DictReader([comma.join(header), *(line for _, line in lines[1:])], delimiter=comma)
            points = [self.of_table(n, row, comma) for (n, _), row in zip(lines[1:], rows)]
            if points and all(point.cell is None for point in points):
                raise Problem(f"{self.path}, line {lines[1][0]}: {points[0].why}; so do all points")
            return points
        self.has_heads = True
        return Hob(self, lines).read()

    def of_table(self, n: int, row: dict, comma: str = ",") -> Point:
        """The point of a table's row. Where semicolons part its columns, a number may have a decimal comma."""
        text = lambda name: (row.get(name) or "").strip().replace("," if comma == ";" else ".", ".")
        number = lambda name: exact_value(text(name)) if text(name) else None
        try:
            layer = int(number("layer") or 1)
            x, y = (float(text(name)) if text("x") else math.nan for name in "xy")
            cell = None if text("x") else (layer, int(text("row")), int(text("col")))
            if text("x") and not (math.isfinite(x) and math.isfinite(y)):
                raise ValueError
            name, measured = (row.get("name") or f"point {n - 1}").strip(), number("measured")
            when = (row.get("date") or row.get("time") or "").strip()
            self.has_dates = self.has_dates or is_date(when)
            time = time_since(self.start, when, self.model.deck.itmuni) if is_date(when) else number("time")
            weight = float(text("weight")) if text("weight") else 1.0
            if not math.isfinite(weight):
                raise ValueError
        except Problem as error:
            raise Problem(f"{self.path}, line {n}: {error}") from None
        except (ValueError, TypeError, KeyError):
            raise Problem(
                f"{self.path}, line {n}: a line is name,x,y or name,row,col, with layer, time (or date), measured and"
                " weight where they are known"
            ) from None
        if cell:
            return replace(self.made(name, [(Spot(cell), ONE)], time, measured), weight=weight)
        try:
            spot = spot_at(self.model, self.place, layer, x, y)
        except Problem as error:
            return Point(name, None, time, measured, why=str(error), weight=weight)
        spots = [(spot if self.is_between else Spot(spot.cell), ONE)]
        return replace(self.made(name, spots, time, measured), weight=weight)

    def made(
        self, name: str, spots: list[tuple[Spot, Fraction]], time: Fraction | None, measured: Fraction | None
    ) -> Point:
        """The point of spots with their shares. Where one of them has no flow it has no head."""
        point = Point(name, spots[0][0].cell, time, measured)
        try:
            point.weights = mixed([(weights_of(self.listing, self.model, spot), share) for spot, share in spots])
        except Problem as error:
            point.why = str(error)
        return point


def text_of(path: Path) -> str:
    """The text of a table: in UTF-8, with or without its mark, else in the letters of Windows."""
    text = read_text(path).encode("latin-1")
    try:
        return text.decode("utf-8-sig")
    except UnicodeDecodeError:
        return text.decode("cp1252", "replace")


def spot_at(model: Model, place: Place, layer: int, x: float, y: float) -> Spot:
    """The spot of a point of the map."""
    gx, gy = place.grid(x, y)
    row, down = along(model.delc, float(np.sum(model.delc)) - gy)
    col, across = along(model.delr, gx)
    if not (row and col):
        raise Problem(f"x {x:g}, y {y:g} lies outside the grid (is --at right?)")
    return Spot((layer, row, col), down, across)


def along(widths: np.ndarray, distance: float) -> tuple[int, Fraction]:
    """The row or column at a distance from the first edge, from 1, and the offset from its middle; 0 outside."""
    ends = np.cumsum(widths)
    if not 0 <= distance <= ends[-1]:
        return 0, Fraction(0)
    at = min(int(np.searchsorted(ends, distance, "right")), len(ends) - 1)
    part = Fraction((distance - float(ends[at] - widths[at])) / float(widths[at])) - HALF
    return at + 1, max(-HALF, min(HALF, part))


class Hob:
    """The lines of a HOB file, one after another. In each form of observation what was measured is a head, also with
    ITT 2, by which MODFLOW compares changes."""

    def __init__(self, points: Points, lines: list[tuple[int, str]]):
        self.points, self.lines, self.at = points, lines, 0
        self.begins = [Fraction(0)]
        for period in points.model.deck.periods:
            self.begins.append(self.begins[-1] + exact_value(period.perlen))

    def line(self) -> list[str]:
        self.at += 1
        return quoted_words(self.lines[self.at - 1][1])

    def read(self) -> list[Point]:
        try:
            count, multiplier = int(self.line()[0]), exact_value(self.line()[0])
            out: list[Point] = []
            while len(out) < count:
                out += self.location(multiplier)
            return out
        except (ValueError, IndexError, ZeroDivisionError):
            number = self.lines[min(self.at, len(self.lines)) - 1][0]
            raise Problem(
                f"{self.points.path}, line {number}: this is neither a table with x, y (or row, col) nor a HOB file"
                " that can be read"
            ) from None

    def location(self, multiplier: Fraction) -> list[Point]:
        """The observations of one place: its line, its layers and their shares, its times."""
        name, layer, row, col, reference, offset, down, across, measured = self.line()[:9]
        spots = [
            (Spot((k, int(row), int(col)), exact_value(down), exact_value(across)), share)
            for k, share in self.layers(name, int(layer))
        ]
        if int(reference) >= 0:
            times = [(name, reference, offset, measured)]
        else:
            self.line()
            lines = [self.line()[:4] for _ in range(-int(reference))]
            times = [(label, period, after, head) for label, period, after, head in lines]
        made, begin_of = self.points.made, lambda p: self.begins[period_of(p)]
        return [
            made(label, spots, begin_of(p) + exact_value(after) * multiplier, exact_value(head))
            for label, p, after, head in times
        ]

    def layers(self, name: str, layer: int) -> list[tuple[int, Fraction]]:
        """The layers of an observation with their shares MLAY, PR; one alone where the layer's number is above 0."""
        if layer > 0:
            return [(layer, ONE)]
        words: list[str] = []
        while len(words) < -2 * layer:
            words += self.line()
        pairs = [(int(words[2 * n]), exact_value(words[2 * n + 1])) for n in range(-layer)]
        total = sum((share for _, share in pairs), Fraction(0))
        if not pairs or abs(total - 1) > MOST_OFF_ONE:
            raise Problem(f"{self.points.path}: the shares PR of {name} add up to {float(total):g}, and 1 is due")
        return pairs


def period_of(word: str) -> int:
    """The place of a stress period's number, which is 1 or more."""
    if int(word) < 1:
        raise ValueError
    return int(word) - 1
