"""A picture of what was measured beside the lower and the upper heads of the same points."""
from __future__ import annotations

from pathlib import Path

import numpy as np

from ..common.text import Problem
from ..listing.listing import UNITS_IN_ONE
from ..listing.observe import Observed
from ..listing.plan_listing import WHAT
from .pictures import Album, box

SIDE = 4.6
FITS, IMPOSSIBLE = "royalblue", "crimson"


def draw_observed(path: Path, seen: Observed) -> None:
    """Draws it into a file PNG: across what was measured, upward the pair; on the line both are the same."""
    if path.suffix.lower() != ".png":
        raise Problem(f"{path}: the picture is a PNG, and its name ends so")
    kept = [each for each in seen.observations if each.less is not None and each.pair is not None]
    if not kept:
        raise Problem("there is nothing to draw: no point has both a measured head and one of the model")
    measured = np.array([float(each.point.measured or 0) for each in kept])
    pairs = np.array([each.pair for each in kept], dtype=float) / UNITS_IN_ONE
    impossible = np.array([each.is_impossible for each in kept])
    values = np.concatenate([measured, pairs.ravel()])
    room = max(float(np.ptp(values)) * 0.04, 1e-6)
    ends = float(values.min()) - room, float(values.max()) + room
    unit, what = seen.model.length, "drawdown" if seen.what == WHAT["DRAWDOWN"] else "head"
    with Album(path.parent).figure(path.stem, SIDE + 0.9, SIDE + 1.1) as figure:
        axes = box(figure, 0.75, 0.95, SIDE, SIDE)
        axes.plot(ends, ends, color="0.6", lw=0.8, label=f"measured {what}")
        kinds = (~impossible, FITS, f"lower to upper {what}"), (impossible, IMPOSSIBLE, "of no exact solution")
        for mask, colour, name in kinds:
            if mask.any():
                axes.vlines(measured[mask], *pairs[mask].T, color=colour, lw=1.2, label=name)
                axes.plot(measured[mask], pairs[mask].mean(axis=1), ls="", marker="o", ms=3.5, color=colour)
        axes.set(xlim=ends, ylim=ends, xlabel=f"measured {what} in {unit}")
        axes.set_ylabel(f"{seen.what} of the model in {unit}")
        axes.legend(loc="upper left", frameon=False)
        figure.text(0.02, 0.02, "\n".join(shortened(line) for line in seen.residuals()), fontsize=7, va="bottom")


def shortened(line: str) -> str:
    """A sentence in two lines."""
    first, _, rest = line.partition("; ")
    return f"{first}\n{rest}"
