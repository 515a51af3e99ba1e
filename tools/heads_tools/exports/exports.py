"""A listing where people work on: places on the map, tables of pandas. Lower heads are rounded down to doubles, upper
ones up. Each format asks for its package only when it is used."""
from __future__ import annotations

import importlib
import math
from fractions import Fraction
from typing import TYPE_CHECKING, Any

import numpy as np

from ..common.text import VERSION, Problem
from ..deck.model import Model
from ..deck.places import Place
from ..listing.listing import Step
from ..listing.plan_listing import PlanListing
from ..listing.tables import budget_of
from ..program.verdict import NO_CHECK, Verdict, not_checked
from .parts import AnyListing, first_of, parts_of

if TYPE_CHECKING:
    import pandas

PACKAGES = {
    "xarray": "python3-xarray python3-netcdf4",
    "netCDF4": "python3-netcdf4",
    "pandas": "python3-pandas",
    "rasterio": "python3-rasterio",
    "meshio": "python3-meshio",
}
METRES = {"m": 1.0, "ft": 0.3048, "cm": 0.01}
ROUNDED = "Heads are rounded outward to doubles."


def comment_of(listing: AnyListing, verdict: Verdict | None) -> str:
    """What the numbers are, after the check of the listing whose they are."""
    told = facts_for(listing, verdict)["verdict"]
    return f"{told} {ROUNDED}"


def facts_for(listing: AnyListing, verdict: Verdict | None) -> dict[str, str]:
    """What a file says of its numbers. A verdict on another listing is refused."""
    verdict = verdict or not_checked(first_of(listing), NO_CHECK)
    if verdict.sha256 != first_of(listing).sha256:
        raise Problem(f"the verdict is that on another listing than {listing.path}")
    return verdict.facts() | {"made_by": f"heads-tools {VERSION}"}


def system_of(epsg: int) -> Any:
    """The reference system of a code of EPSG; None where rasterio isn't here, which knows them."""
    try:
        from rasterio.crs import CRS
        from rasterio.errors import CRSError
    except ImportError:
        return None
    try:
        return CRS.from_epsg(epsg)
    except CRSError:
        raise Problem(f"EPSG:{epsg} isn't known: a code of EPSG is due, as 28992") from None


def demand_unit(model: Model | None, place: Place) -> None:
    """Refuses a reference system whose lengths have another unit than the model's: the grid isn't converted."""
    system, metres = system_of(place.epsg) if place.epsg else None, METRES.get(model.length) if model else None
    if system is None:
        return
    if not system.is_projected:
        raise Problem(f"EPSG:{place.epsg} has degrees, and the grid has lengths: a code of a projection is due")
    name, factor = system.linear_units_factor
    if model and metres and abs(factor - metres) > 1e-5 * metres:
        raise Problem(
            f"{model.deck.path.name} has its lengths in {model.length}, and EPSG:{place.epsg} in {name}: the grid isn't"
            " converted. Take a code with the model's unit, or leave the code out"
        )


class Unwritten(Problem):
    """A form of files that can't be had here: its package is missing, or it can't hold the grid."""


def package(name: str) -> Any:
    """A package that may be missing."""
    try:
        return importlib.import_module(name)
    except ImportError:
        raise Unwritten(
            f"this needs the Python package {name}: apt-get install {PACKAGES[name]}, or pip install {name}"
        ) from None


def outward(units: int, places: int, side: int) -> float:
    """The double beside units * 10^-places: the nearest one that isn't above it (side -1) or below it (side 1)."""
    near = int(units) / 10**places
    exact = Fraction(int(units), 10**places)
    return float(np.nextafter(near, side * np.inf)) if side * (Fraction(near) - exact) < 0 else near


def middles(model: Model) -> tuple[np.ndarray, np.ndarray]:
    """The middles of columns from the west and of rows from the south."""
    return np.cumsum(model.delr) - model.delr / 2, model.delc.sum() - np.cumsum(model.delc) + model.delc / 2


def time_of(model: Model | None, step: Step) -> float:
    return model.times.get((step.period, step.step), (0.0, math.nan))[1] if model else math.nan


def heads_frame(
    listing: AnyListing, model: Model | None = None, place: Place = Place(), verdict: Verdict | None = None
) -> pandas.DataFrame:
    """A row for each step and cell: period, step, time, layer, row, col, x, y (with a model), lower, upper; of a plan's
    listing base_lower to drawdown_upper. Its attrs have the verdict."""
    pandas, first = package("pandas"), first_of(listing)
    n, steps, cells = len(first.cells), first.steps, first.cells
    columns: dict[str, Any] = {
        "period": np.repeat([s.period for s in steps], n),
        "step": np.repeat([s.step for s in steps], n),
    }
    if model:
        columns["time"] = np.repeat([time_of(model, s) for s in steps], n)
    columns |= {name: np.tile(cells[:, at], len(steps)) for at, name in enumerate(("layer", "row", "col"))}
    if model:
        x, y = middles(model)
        wx, wy = place.world(x[cells[:, 2] - 1], y[cells[:, 1] - 1])
        columns |= {"x": np.tile(wx, len(steps)), "y": np.tile(wy, len(steps))}
    for part in parts_of(listing):
        for name, side in (("lower", part.listing.lower()), ("upper", part.listing.upper())):
            columns[part.prefix + name] = np.concatenate([grid[tuple((cells - 1).T)] for grid in side])
    frame = pandas.DataFrame(columns)
    frame.attrs.update(facts_for(listing, verdict))
    return frame


def terms_frame(
    listing: AnyListing, model: Model | None = None, verdict: Verdict | None = None
) -> pandas.DataFrame:
    """A row for each step and budget term, rates: in, out and net (narrowed to what the other terms leave), outward; of
    a plan's listing what each term gives more under the plan. Its attrs have the verdict."""
    pandas = package("pandas")
    if isinstance(listing, PlanListing):
        frame = sources_frame(listing, model)
        frame.attrs.update(facts_for(listing, verdict))
        return frame
    names = [
        "period",
        "step",
        "time",
        "term",
        "in_lower",
        "in_upper",
        "out_lower",
        "out_upper",
        "net_lower",
        "net_upper",
    ]
    rows = []
    for step in listing.steps:
        budget = budget_of(step)
        nets = {name: pair for name, _, _, *pair in budget.nets}
        for name, *flows in budget.rows[:-1]:
            values = [outward(v, listing.flow_places, 1 if n % 2 else -1) for n, v in enumerate([*flows, *nets[name]])]
            rows.append((step.period, step.step, time_of(model, step), name, *values))
    frame = pandas.DataFrame(rows, columns=names).set_index(["period", "step", "term"])
    frame.attrs.update(facts_for(listing, verdict))
    return frame


def sources_frame(listing: PlanListing, model: Model | None) -> pandas.DataFrame:
    """A row for each step and term: what the term gives more under the plan."""
    places, rows = listing.drawdown.flow_places, []
    for step, terms in zip(listing.drawdown.steps, listing.sources):
        for name, pair in terms.items():
            more = (outward(each, places, side) for each, side in zip(pair, (-1, 1)))
            rows.append((step.period, step.step, time_of(model, step), name, *more))
    names = ["period", "step", "time", "term", "more_lower", "more_upper"]
    return package("pandas").DataFrame(rows, columns=names).set_index(["period", "step", "term"])
