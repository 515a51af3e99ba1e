"""Tables of pandas of what flows between zones."""
from __future__ import annotations

from pathlib import Path
from typing import TYPE_CHECKING

import numpy as np

from .common.text import Problem
from .deck.model import Model
from .exports.exports import facts_for, outward, package
from .listing.listing import Listing
from .listing.zones import read_zones
from .numbers.zone_budget import zone_budgets
from .program.verdict import Verdict

if TYPE_CHECKING:
    import pandas

FLOWS = ["period", "step", "from", "to", "lower", "upper"]
BUDGET = "period step zone term in_lower in_upper out_lower out_upper net_lower net_upper".split()


def zones_frame(
    listing: Listing,
    model: Model | None = None,
    zones: str | Path | np.ndarray | None = None,
    verdict: Verdict | None = None,
) -> pandas.DataFrame:
    """The flows between zones that a listing has (its lines ZONE); with a model and `zones`, a zone file or an array of
    zones, the whole budget of each zone, its nets narrowed. Rounded outward to doubles."""
    frames, places = package("pandas"), listing.flow_places
    sides = lambda values: [outward(value, places, 1 if n % 2 else -1) for n, value in enumerate(values)]
    rows: list[tuple]
    if zones is None:
        rows = [(s.period, s.step, a, b, *sides(pair)) for s in listing.steps for a, b, *pair in s.zones]
        frame = frames.DataFrame(rows, columns=FLOWS)
    else:
        if model is None:
            raise Problem("the budget of zones needs the model, too: zones_frame(listing, model, zones)")
        numbers = zones if isinstance(zones, np.ndarray) else read_zones(Path(zones), model.deck.path, model.shape)
        if numbers.shape != model.shape:
            raise Problem(f"the zones have the shape {numbers.shape}, and the model {model.shape}")
        rows = [
            (each.period, each.step, each.zone, row.term, *sides([*row.sums[:4], *each.narrowed(row)]))
            for each in zone_budgets(model, listing, numbers)
            for row in each.rows
        ]
        frame = frames.DataFrame(rows, columns=BUDGET)
    frame.attrs.update(facts_for(listing, verdict))
    return frame
