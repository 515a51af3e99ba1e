"""Heads of a layer in axes of matplotlib, for scripts."""
from __future__ import annotations

import numpy as np
from matplotlib.axes import Axes
from matplotlib.backends.backend_agg import FigureCanvasAgg
from matplotlib.figure import Figure

from ..common.text import LENGTHS, Problem
from ..deck.model import Model
from ..listing.listing import Listing

SIDES = ("lower", "upper", "middle")


def plot_heads(
    listing: Listing,
    model: Model | None = None,
    ax: Axes | None = None,
    layer: int = 1,
    kstpkper: tuple[int, int] | None = None,
    side: str = "middle",
) -> Axes:
    """The axes that the heads were drawn into: those given, or new ones of a figure of their own."""
    if side not in SIDES:
        raise Problem(f"`{side}` is no side: {', '.join(SIDES)}")
    if not listing.steps:
        raise Problem(f"{listing.path} has no step")
    step = listing.steps[-1]
    lower, upper = listing.at(kstpkper=kstpkper or (step.step - 1, step.period - 1))
    if not 1 <= layer <= len(lower):
        raise Problem(f"{listing.path} has layers 1 to {len(lower)}")
    grid = {"lower": lower, "upper": upper, "middle": (lower + upper) / 2}[side][layer - 1]
    if ax is None:
        figure = Figure()
        FigureCanvasAgg(figure)
        ax = figure.add_subplot()
    rows, cols = grid.shape
    x, y = np.arange(cols + 1) + 0.5, np.arange(rows + 1) + 0.5
    labels = "column", "row"
    if model:
        whole = np.full(model.shape[1:], np.nan)
        whole[:rows, :cols] = grid
        grid = whole
        x = np.concatenate([[0], np.cumsum(model.delr)])
        y = model.delc.sum() - np.concatenate([[0], np.cumsum(model.delc)])
        labels = (f"x in {model.length}", f"y in {model.length}")
    mesh = ax.pcolormesh(x, y, np.ma.masked_invalid(grid))
    ax.set(xlabel=labels[0], ylabel=labels[1], aspect="equal")
    if not model:
        ax.invert_yaxis()
    ax.figure.colorbar(mesh, ax=ax, label=f"{side} head in {LENGTHS.get(listing.unit, 'length units')}")
    return ax
