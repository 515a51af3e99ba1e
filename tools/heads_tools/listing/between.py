"""Heads at places between the middles of cells, as weighted sums of heads of cells, with exact weights."""
from __future__ import annotations

from dataclasses import dataclass
from fractions import Fraction

from ..common.text import Problem
from ..deck.model import Model
from .listing import Cell, Listing

Weights = dict[Cell, Fraction]
HALF = Fraction(1, 2)


@dataclass(frozen=True)
class Spot:
    """A place in a layer: its cell, and how far it lies from the cell's middle, in parts of the cell: `down` the rows
    (ROFF of a HOB file) and `across` the columns (COFF), each from -1/2 to 1/2."""

    cell: Cell
    down: Fraction = Fraction(0)
    across: Fraction = Fraction(0)


def weights_of(listing: Listing, model: Model, spot: Spot) -> Weights:
    """The weights of the cells next to a spot, which add up to 1. Between the middles of four cells: bilinear. Where
    one of the four has no flow: the plane through the other three. Where neither neighbour across the cell's sides
    has flow: the cell's own head; where one has none: straight along the other."""
    k, i, j = spot.cell
    if not listing.has(spot.cell):
        raise Problem("cell {},{},{} has no flow, or lies outside the grid".format(*spot.cell))
    if max(abs(spot.down), abs(spot.across)) > HALF:
        raise Problem("an offset lies from -0.5 to 0.5 of the cell")
    row, r = toward(i, spot.down, model.deck.nrow, lambda n: Fraction(model.deck.delc.exact(n - 1)))
    col, c = toward(j, spot.across, model.deck.ncol, lambda n: Fraction(model.deck.delr.exact(n - 1)))
    side, below, corner = (k, i, col), (k, row, j), (k, row, col)
    has_side, has_below, has_corner = map(listing.has, (side, below, corner))
    if not r or not (has_below or has_corner and has_side and c):
        return weighted((spot.cell, 1 - c), (side, c)) if c and has_side else {spot.cell: Fraction(1)}
    if not c or not (has_side or has_corner and has_below):
        return weighted((spot.cell, 1 - r), (below, r))
    if not has_corner:
        return weighted((spot.cell, 1 - c - r), (side, c), (below, r))
    if not has_below:
        return weighted((spot.cell, 1 - c), (side, c - r), (corner, r))
    if not has_side:
        return weighted((spot.cell, 1 - r), (below, r - c), (corner, c))
    return weighted((spot.cell, (1 - r) * (1 - c)), (side, (1 - r) * c), (below, r * (1 - c)), (corner, r * c))


def toward(at: int, offset: Fraction, count: int, width) -> tuple[int, Fraction]:
    """The next row or column in the direction of an offset, and the part of the way to its middle; 0 at the edge."""
    other = at + (1 if offset > 0 else -1)
    if not offset or not 1 <= other <= count:
        return at, Fraction(0)
    return other, abs(offset) * width(at) / ((width(at) + width(other)) / 2)


def weighted(*parts: tuple[Cell, Fraction]) -> Weights:
    return {cell: part for cell, part in parts if part}


def mixed(parts: list[tuple[Weights, Fraction]]) -> Weights:
    """The weights of a mixture, as of an observation in several layers."""
    out: Weights = {}
    for weights, share in parts:
        for cell, part in weights.items():
            out[cell] = out.get(cell, Fraction(0)) + share * part
    return out
