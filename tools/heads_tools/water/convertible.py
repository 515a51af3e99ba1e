"""Models whose layers are convertible (LPF, LAYTYP other than 0): what is read, where the water table is, what is
stored.

A cell of a convertible layer is as thick as the lesser of its head and its top says, less its bottom: its saturated
thickness. It has the water table where no cell with flow lies right above it. A convertible cell below another one is
full where heads are gentle (gentle.py)."""
from __future__ import annotations

from dataclasses import dataclass
from fractions import Fraction
from pathlib import Path

import numpy as np

from ..common.spelling import exact
from ..common.text import Problem, counted
from ..deck.deck import Deck
from ..deck.looks import look_at_cells, look_at_entries
from ..deck.model import Model, model_of
from ..deck.packages import read_deck
from ..deck.sources import Array, Report
from ..listing.below_top import least_units
from ..numbers.whole import MOST_HEAD

ONE = 10**9
Heads = np.ndarray


def fractions_of(array: Array) -> list[Fraction]:
    """An array's values row after row, exactly."""
    factor = Fraction(1) if array.is_constant else Fraction(exact(array.factor)) or Fraction(1)
    known = {word: Fraction(exact(word)) * factor for word in set(array.words)}
    size = array.shape[0] * array.shape[1]
    return [known[array.words[0]]] * size if array.is_constant else [known[word] for word in array.words]


def is_convertible(deck: Deck, layer: int) -> bool:
    """Whether a layer, counted from 0, is convertible."""
    return float(deck.layer_words[0][layer]) != 0


@dataclass
class Stored:
    """What a step's storage is made of, by cell, over the step's length: SS * THICK * A / t and SY * A / t."""

    by_ss: list[Fraction]
    by_sy: list[Fraction]


class Convertible:
    """A model with convertible layers. By cell: `tops`, `bottoms`, the least whole numbers of 10^-9 that aren't below
    them; `in_layer`, whether it has flow and its layer is convertible; `has_table`, whether the water table is in it
    where it isn't full."""

    def __init__(self, model: Model):
        self.model, deck = model, model.deck
        self.deck, self.shape = deck, model.shape
        self.size = deck.nrow * deck.ncol
        self.layers = [is_convertible(deck, k) for k in range(deck.nlay)]
        self.active = model.ibound.ravel() != 0
        self.in_layer = np.repeat(self.layers, self.size) & self.active
        self.is_covered = np.concatenate([np.zeros(self.size, bool), self.active[: -self.size]]) & self.active
        self.has_table = self.in_layer & ~self.is_covered
        self.tops = self.units([deck.top_of(k) for k in range(deck.nlay)])
        self.bottoms = self.units(deck.bottom)
        far = np.flatnonzero((np.abs(self.tops) > MOST_HEAD) | (np.abs(self.bottoms) > MOST_HEAD))
        if far.size:
            raise Problem(f"{deck.files['DIS']}: the cell {self.name(far[0])} has an elevation past 4,000,000,000")
        self.top = [value for k in range(deck.nlay) for value in fractions_of(deck.top_of(k))]
        self.bottom = [value for array in deck.bottom for value in fractions_of(array)]

    def units(self, arrays: list[Array]) -> Heads:
        """Elevations of all cells in 10^-9, rounded up."""
        parts = [least_units(array) for array in arrays]
        return np.concatenate([np.resize(part, self.size) for part in parts])

    def name(self, cell: int) -> str:
        return " ".join(map(str, self.model.cell(int(cell))))

    def full(self, heads: Heads) -> np.ndarray:
        """The cells of convertible layers that are full at these heads."""
        return self.in_layer & (heads >= self.tops)

    def stored(self, length: Fraction) -> Stored:
        """Storage over a step of this length."""
        deck, by_ss, by_sy = self.deck, [], []
        delr, delc = fractions_of(deck.delr), fractions_of(deck.delc)
        areas = [width * height / length for height in delc for width in delr]
        for k, layer in enumerate(deck.properties):
            ss = fractions_of(layer["SS"])
            sy = fractions_of(layer["SY"]) if self.layers[k] else [Fraction(0)] * self.size
            for r, area in enumerate(areas):
                c = k * self.size + r
                thick = Fraction(1) if self.model.is_coefficient else self.top[c] - self.bottom[c]
                by_ss.append(ss[r] * thick * area)
                by_sy.append(sy[r] * area)
        return Stored(by_ss, by_sy)

    def water(self, stored: Stored, cell: int, units: int) -> Fraction:
        """What a cell holds at a head of whole 10^-9, over the step's length: TM 6-A16, chapter 5, storage of
        convertible layers: SY * A * min(h, top) + SS * THICK * A * max(h - top, 0)."""
        head, top = Fraction(int(units), ONE), self.top[cell]
        if not self.in_layer[cell]:
            return stored.by_ss[cell] * head
        return stored.by_sy[cell] * min(head, top) + stored.by_ss[cell] * max(head - top, Fraction(0))


def read_convertible(nam: Path, takes_confined: bool = False) -> tuple[Convertible, Report]:
    """A model whose layers may be convertible; raises Problem where it isn't inside for another reason.
    `takes_confined`: a deck without such a layer is taken, too."""
    deck, report = read_deck(nam, as_modflow=True, has_convertible=True)
    if not report.refusals:
        model = model_of(deck)
        look_at_cells(model, report)
        look_at_entries(model, report)
        look_at_yield(model, report)
    wrong = report.refusals + report.blocking
    if wrong:
        more = f" (and {len(wrong) - 1} more: `heads-tools inside`)" if len(wrong) > 1 else ""
        raise Problem(f"{wrong[0]}{more}")
    if not takes_confined and not any(is_convertible(deck, k) for k in range(deck.nlay)):
        raise Problem(f"{deck.files['LPF']}: every LAYTYP is 0: each layer is confined already")
    return Convertible(model), report


def look_at_yield(model: Model, report: Report) -> None:
    """Refuses a specific yield below 0 in a cell with flow."""
    for k, layer in enumerate(model.deck.properties):
        if "SY" not in layer:
            continue
        bad = np.argwhere((layer["SY"].floats() < 0) & (model.ibound[k] != 0)) + 1
        if len(bad):
            cells = f"the cell {k + 1} {bad[0][0]} {bad[0][1]} (layer row column)"
            more = f", the first of {counted(len(bad), 'cell')} of the layer" if len(bad) > 1 else ""
            report.add("refusals", model.deck.files["LPF"], layer["SY"].line, f"{cells}: SY is below 0{more}")
