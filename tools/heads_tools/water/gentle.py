"""Whether heads of a model with convertible layers are gentle: where LPF's flows rise and fall with heads as those of a
confined model do.

Heads are gentle where each convertible cell's head is above its bottom; where along each branch of a row or a column
the head falls by no more than the saturated thickness of the lower cell, unless that cell is full or its head is given;
and where below a cell with flow the head isn't below that cell's bottom, if one of the two is convertible. Elsewhere
LPF's equations may have several solutions."""
from __future__ import annotations

from dataclasses import dataclass

import numpy as np

from ..common.text import decimal_text
from .convertible import Convertible, Heads

GENTLE = (
    "Heads are gentle where each cell of a convertible layer has its head above its bottom; where from cell to cell of"
    " such a layer the head falls by no more than the saturated thickness of the lower cell (unless that cell is full,"
    " or its head is given); and where no head lies below the bottom of the cell above it (if one of the two is"
    " convertible). Elsewhere LPF's equations may have several solutions."
)
DRY, STEEP, PERCHED, DRIED = 1, 2, 3, 4


@dataclass(frozen=True)
class NotGentle:
    """A cell at which heads between two vectors needn't be gentle, and why."""

    cell: int
    reason: int
    text: str


def reasons_of(water: Convertible, low: Heads, high: Heads, is_variable: np.ndarray) -> tuple[np.ndarray, np.ndarray]:
    """By cell why not all heads between `low` and `high` (10^-9) are gentle, 0 where they are, and the neighbour with
    the greatest upper head. It is enough to look at the least head of a cell and the greatest one of a neighbour."""
    reasons = np.zeros(len(low), int)
    steepest = steepest_neighbours(water, high)
    fall = np.where(steepest >= 0, high[steepest], low) - low
    reasons[is_perched(water, low)] = PERCHED
    is_thin = water.has_table & is_variable & (low < water.tops) & (fall > low - water.bottoms)
    reasons[is_thin] = STEEP
    reasons[water.has_table & (low <= water.bottoms)] = DRY
    return reasons, steepest


def first_not_gentle(water: Convertible, low: Heads, high: Heads, is_variable: np.ndarray) -> NotGentle | None:
    """The first cell at which heads between `low` and `high` needn't be gentle; None where all are."""
    reasons, steepest = reasons_of(water, low, high, is_variable)
    found = np.flatnonzero(reasons)
    if not found.size:
        return None
    cell = int(found[0])
    return NotGentle(cell, int(reasons[cell]), sentence(water, low, high, cell, reasons, steepest))


def steepest_neighbours(water: Convertible, high: Heads) -> np.ndarray:
    """For each cell the neighbour with flow in its row or column whose upper head is greatest, -1 where it has none."""
    cells = np.arange(len(high)).reshape(water.shape)
    best = np.full(water.shape, -1)
    greatest = np.full(water.shape, np.iinfo(np.int64).min)
    for here, there in NEIGHBOURS:
        beside = cells[there]
        heads = np.where(water.active[beside], high[beside], np.iinfo(np.int64).min)
        is_better = heads > greatest[here]
        best[here] = np.where(is_better, beside, best[here])
        greatest[here] = np.where(is_better, heads, greatest[here])
    return best.ravel()


ALL = slice(None)
FIRST, LAST = slice(None, -1), slice(1, None)
NEIGHBOURS = [
    ((ALL, ALL, LAST), (ALL, ALL, FIRST)),
    ((ALL, ALL, FIRST), (ALL, ALL, LAST)),
    ((ALL, LAST), (ALL, FIRST)),
    ((ALL, FIRST), (ALL, LAST)),
]


def is_perched(water: Convertible, low: Heads) -> np.ndarray:
    """The cells below one with flow, where one of the two is convertible, whose head is below that one's bottom."""
    out, size = np.zeros(len(low), bool), water.size
    both = water.active[size:] & water.active[:-size] & (water.in_layer[size:] | water.in_layer[:-size])
    out[size:] = both & (low[size:] < water.bottoms[:-size])
    return out


def sentence(
    water: Convertible, low: Heads, high: Heads, cell: int, reasons: np.ndarray, steepest: np.ndarray
) -> str:
    head, bottom = (decimal_text(int(units[cell]), 9) for units in (low, water.bottoms))
    unit, name = water.model.length, f"layer row column {water.name(cell)}"
    if reasons[cell] == DRY:
        return f"at {name} the head {head} {unit} isn't above the cell's bottom, {bottom} {unit}: the cell is dry"
    if reasons[cell] == PERCHED:
        above = decimal_text(int(water.bottoms[cell - water.size]), 9)
        return f"at {name} the head {head} {unit} lies below {above} {unit}, the bottom of the cell above it"
    fall = decimal_text(int(high[steepest[cell]]) - int(low[cell]), 9)
    thick = decimal_text(int(low[cell]) - int(water.bottoms[cell]), 9)
    return (
        f"from layer row column {water.name(int(steepest[cell]))} to {water.name(cell)} the head falls by {fall}"
        f" {unit}, which is more than the saturated thickness of the lower cell, {thick} {unit}"
    )
