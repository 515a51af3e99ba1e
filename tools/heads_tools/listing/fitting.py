"""Whether a listing is whole, and whether it has a model's cells and steps: else its numbers are of something else."""
from __future__ import annotations

import numpy as np

from ..common.text import Problem
from ..deck.model import Model
from .listing import Listing


def demand_whole(listing: Listing) -> None:
    """Refuses a listing that was cut, or whose run ended early."""
    if not listing.steps:
        raise Problem(f"{listing.path} has no whole step: it ends with `{listing.end or 'a part of a step'}`")
    if not listing.is_whole:
        raise Problem(
            f"{listing.path} isn't whole: it ends with `{listing.end or 'a part of a step'}`, and a run that went well"
            " ends with END"
        )


def demand_fit(listing: Listing, model: Model) -> None:
    """Refuses a listing that isn't whole, or isn't of the model."""
    demand_whole(listing)
    if any(a > b for a, b in zip(listing.shape, model.shape)):
        raise Problem(
            f"{listing.path} has cells up to {listing.shape}, and the model's grid is {model.shape}: another model"
        )
    cells = np.argwhere(model.ibound != 0) + 1
    if not np.array_equal(cells, listing.cells):
        theirs, ours = (set(map(tuple, each.tolist())) for each in (listing.cells, cells))
        cell = min(theirs ^ ours)
        has, lacks = ("the model", "the listing") if cell in ours else ("the listing", "the model")
        place = "layer {} row {} column {}".format(*cell)
        raise Problem(f"{listing.path} is of another model: {has} has a cell with flow at {place}, {lacks} has none")
    steps = [(step.period, step.step) for step in listing.steps]
    if steps != list(model.times):
        pairs = zip([*steps, None], [*model.times, None])
        at, (listed, due) = next((n, pair) for n, pair in enumerate(pairs, 1) if pair[0] != pair[1])
        told = ["no step" if each is None else "period {} step {}".format(*each) for each in (listed, due)]
        differs = f"its time step {at} is {told[0]}, and the model's is {told[1]}"
        raise Problem(f"{listing.path} is of another model: {differs}")
