"""Where a model contradicts itself: cells of its confined layers whose exact heads lie below the cell's own top.
Nothing is rounded: a head of n whole 10^-9 lies below a top t where n is less than 10^9 t rounded up."""
from __future__ import annotations

import math
from dataclasses import dataclass
from fractions import Fraction
from functools import cached_property
from pathlib import Path
from typing import Callable

import numpy as np

from ..common.spelling import exact
from ..common.text import Problem, counted
from ..deck.deck import Deck
from ..deck.grid_files import read_dis
from ..deck.name_file import read_names
from ..deck.reading import Reading
from ..deck.sources import Array
from .listing import UNITS_IN_ONE, Listing, Step

THINNER = (
    "An aquifer that isn't full is thinner than the model takes it, and a thinner aquifer draws down more: there a "
    "bound on a drawdown isn't on the safe side."
)
ALL_FULL = "At the end of each listed step every lower head is at or above the top of its cell: each layer is full."
ALL_LISTED_FULL = "Every lower head is at or above the top of its cell; of exact heads certified pairs alone say it."
NO_TOPS = "not known, since no model was named (--name): whether heads lie below the tops of their cells isn't said"
MOST_UNITS = 2**63 - 1


def least_units(array: Array) -> np.ndarray:
    """For each elevation of an array the least whole number of 10^-9 that isn't below it, row after row."""
    factor = Fraction(1) if array.is_constant else Fraction(exact(array.factor)) or Fraction(1)
    units = {word: math.ceil(Fraction(exact(word)) * factor * UNITS_IN_ONE) for word in set(array.words)}
    within = {word: max(-MOST_UNITS, min(MOST_UNITS, n)) for word, n in units.items()}
    return np.array([within[word] for word in array.words], np.int64)


def units_at(deck: Deck, cells: np.ndarray, elevation: Callable[[int], Array]) -> np.ndarray:
    """For each cell (layer, row, column) the least whole number of 10^-9 that isn't below its elevation, which is that
    of an array for each layer, counted from 0."""
    out = np.zeros(len(cells), np.int64)
    for layer in np.unique(cells[:, 0]).tolist():
        here = cells[:, 0] == layer
        units = least_units(elevation(layer - 1))
        out[here] = units[(cells[here, 1] - 1) * deck.ncol + cells[here, 2] - 1 if len(units) > 1 else 0]
    return out


@dataclass
class Layer:
    """What there is to say of a layer: its cells with flow; how many are below their tops for certain at the end of
    some step, and at the end of each; how many of these are below their bottoms, too; how many others may be below
    their tops."""

    number: int
    cells: int
    below: int
    by_step: list[int]
    dry: int
    perhaps: int


class BelowTop:
    """The cells of a listing whose upper head is below the cell's top, so that every exact head is (`below`), and those
    whose lower head alone is (`perhaps`): for each cell the count of the steps at whose end it is so. `dry`: the same
    of an upper head below the cell's bottom."""

    def __init__(self, deck: Deck, listing: Listing):
        shape = deck.nlay, deck.nrow, deck.ncol
        if any(a > b for a, b in zip(listing.shape, shape)):
            raise Problem(f"{listing.path} has cells up to {listing.shape}, and the model's grid is {shape}")
        self.listing, self.tops = listing, units_at(deck, listing.cells, deck.top_of)
        bottoms = units_at(deck, listing.cells, lambda layer: deck.bottom[layer])
        self.below, self.perhaps, self.dry = (np.zeros(len(listing.cells), np.int64) for _ in range(3))
        layers, self.by_step = listing.cells[:, 0] - 1, []
        for step in listing.steps:
            is_below = self.is_below(step)
            self.below += is_below
            self.perhaps += self.is_perhaps(step)
            self.dry += step.high < bottoms
            self.by_step.append(np.bincount(layers[is_below], minlength=deck.nlay))

    def is_below(self, step: Step) -> np.ndarray:
        """Whether every exact head of a cell lies below its top at the end of a step."""
        return step.high < self.tops

    def is_perhaps(self, step: Step) -> np.ndarray:
        """Whether a cell's lower head alone lies below its top at the end of a step."""
        return (step.low < self.tops) & (self.tops <= step.high)

    @cached_property
    def layers(self) -> list[Layer]:
        """The layers with a cell that is, or may be, below its top."""
        perhaps, out = (self.perhaps > 0) & (self.below == 0), []
        for k in np.unique(self.listing.cells[(self.below > 0) | perhaps, 0]).tolist():
            here = self.listing.cells[:, 0] == k
            counts = [int(count[k - 1]) for count in self.by_step]
            below, dry, others = (int((which & here).sum()) for which in (self.below > 0, self.dry > 0, perhaps))
            out.append(Layer(k, int(here.sum()), below, counts, dry, others))
        return out

    @property
    def count(self) -> int:
        """How many cells are below their tops at the end of some step."""
        return int((self.below > 0).sum())

    def sentences(self, is_certified: bool = True) -> list[str]:
        """What a reading has to know, layer by layer, and what it means; nothing where each cell is full."""
        lines = self.lines(is_certified)
        return [*lines, THINNER] if self.count else lines

    def lines(self, is_certified: bool = True) -> list[str]:
        """The same without what it means."""
        return [line for layer in self.layers for line in self.of_layer(layer, is_certified)]

    def of_layer(self, layer: Layer, is_certified: bool) -> list[str]:
        out, has_steps = [], len(self.listing.steps) > 1
        head = "every exact head" if is_certified else "the upper head"
        head += " of every deck between the two" if is_certified and self.listing.is_span else ""
        when, then = (" at the end of some step", " then") if has_steps else ("", "")
        if layer.below:
            out.append(
                f"In {layer.below} of {counted(layer.cells, 'cell')} of layer {layer.number} {head} lies below the "
                f"cell's top{when}: there the aquifer isn't confined{then}, and the model takes it as full."
            )
            if has_steps:
                out.append(self.of_steps(layer))
        if layer.dry:
            out.append(
                f"In {layer.dry} of them it lies below the cell's bottom, too{when}: there the cell would be dry{then}."
            )
        if layer.perhaps:
            out.append(
                f"In {layer.perhaps}{' more' * bool(layer.below)} of {counted(layer.cells, 'cell')} of layer "
                f"{layer.number} the lower head alone lies below the cell's top{when}: there the aquifer may be less "
                "than full."
            )
        return out

    def of_steps(self, layer: Layer) -> str:
        """At which steps a layer has such cells: how many steps, the worst one and the last."""
        steps, counts = self.listing.steps, layer.by_step
        worst = steps[counts.index(max(counts))]
        return (
            f"Layer {layer.number} has such cells at the end of {sum(map(bool, counts))} of {len(steps)} steps: "
            f"most, {max(counts)}, at the end of period {worst.period} step {worst.step}, and {counts[-1]} at the end "
            f"of the last one, period {steps[-1].period} step {steps[-1].step}."
        )


def below_top(nam: Path, listing: Listing) -> BelowTop:
    """The cells of a listing below their tops, by the model's DIS alone."""
    reading = Reading(nam, any_size=True)
    read_names(reading)
    read_dis(reading)
    return BelowTop(reading.deck, listing)


def lines_below_top(nam: Path, listing: Listing) -> list[str]:
    """What a run says of its listing beside its progress: the sentences, or why the tops can't be read."""
    try:
        return below_top(nam, listing).sentences()
    except (Problem, IndexError, ValueError, KeyError) as error:
        return [f"Whether heads lie below the tops of their cells isn't known: {error}"]
