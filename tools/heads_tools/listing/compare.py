"""How far given heads are from every exact solution, by the bounds of a listing."""
from __future__ import annotations

from dataclasses import dataclass
from pathlib import Path
from typing import Mapping

import numpy as np

from ..common.text import Problem, counted, short_down, short_up
from ..common.whole_files import whole_file
from .headfile import ANY_STEP
from .listing import Listing, Step


@dataclass
class Difference:
    """Of one step, by cell of the listing (nan where no head is given), in length units: the given heads are off
    from each exact solution by `least` at least (rounded down) and by `most` at most (rounded up)."""

    step: Step
    least: np.ndarray
    most: np.ndarray


def compare(listing: Listing, heads: Mapping[tuple[int, int], np.ndarray]) -> list[Difference]:
    """The differences of all steps for which heads are given."""
    demand_grid(listing, heads)
    at, out = tuple((listing.cells - 1).T), []
    for step in listing.steps:
        given = heads.get((step.period, step.step), heads.get(ANY_STEP))
        if given is None:
            continue
        h = padded(given, listing.shape)[at].astype(np.longdouble)
        low, high = step.low.astype(np.longdouble) / 10**9, step.high.astype(np.longdouble) / 10**9
        slack = 4 * np.finfo(float).eps * np.maximum(np.abs(h), np.maximum(np.abs(low), np.abs(high)))
        least = np.maximum(0, np.maximum(low - h, h - high) - slack)
        most = np.maximum(np.abs(h - low), np.abs(h - high)) + slack
        out.append(Difference(step, least.astype(float), most.astype(float)))
    if not out:
        raise Problem(
            "the given heads have none of the listing's periods and steps (heads are saved by MODFLOW's output control)"
        )
    if all(np.isnan(d.most).all() for d in out):
        raise Problem("the given heads have none of the listing's cells")
    return out


def demand_grid(listing: Listing, heads: Mapping[tuple[int, int], np.ndarray]) -> None:
    """Refuses a head file whose layers have fewer rows or columns than the listing has: its cells are others."""
    _, rows, cols = listing.shape
    for grid in heads.values() if getattr(heads, "has_grid", False) else ():
        if grid.shape[1] < rows or grid.shape[2] < cols:
            raise Problem(
                f"the given heads are of {counted(grid.shape[1], 'row')} and {counted(grid.shape[2], 'column')}, and"
                f" the listing has cells up to row {rows}, column {cols}: another grid (as one of vertices, DISV, or"
                " an unstructured one)"
            )


def padded(grid: np.ndarray, least: tuple[int, int, int]) -> np.ndarray:
    """The grid, with nan added where it is smaller than the least shape."""
    return np.pad(grid, [(0, max(0, b - a)) for a, b in zip(grid.shape, least)], constant_values=np.nan)


def write_csv(path: Path, listing: Listing, differences: list[Difference]) -> None:
    """A table of the steps: off by `least` at least (rounded down) and by `most` at most (rounded up), the cells
    outside their pair, and the worst one."""
    with whole_file(path) as file:
        file.write("period,step,least,most,outside,given,layer,row,col\n")
        for d in differences:
            here = ~np.isnan(d.most)
            if here.any():
                least, most = float(np.nanmax(d.least)), float(np.nanmax(d.most))
                cell = ",".join(map(str, listing.cells[int(np.nanargmax(d.least if least > 0 else d.most))].tolist()))
                file.write(
                    f"{d.step.period},{d.step.step},{least!r},{most!r},"
                    f"{int((d.least[here] > 0).sum())},{int(here.sum())},{cell}\n"
                )


def sentences(listing: Listing, differences: list[Difference], unit: str) -> list[str]:
    """What the differences come to, in sentences."""
    out = spoken_between(listing, differences, unit) if listing.is_span else spoken(listing, differences, unit)
    if not listing.is_whole:
        out.append("the listing doesn't end with END: its pairs are no bounds")
    return out


def spoken_between(listing: Listing, differences: list[Difference], unit: str) -> list[str]:
    """What heads of a deck between two come to beside bounds for every such deck: only what lies outside tells."""
    out = []
    for d in differences:
        here, outside = ~np.isnan(d.most), int(np.nansum(d.least > 0))
        if not here.any():
            continue
        worst = "layer row column " + " ".join(map(str, listing.cells[int(np.nanargmax(d.least))]))
        far = f", by {short_down(float(np.nanmax(d.least)))} {unit} or more at {worst}" if outside else ""
        given = f"{int(here.sum())} of {counted(len(here), 'cell')}"
        out.append(
            f"period {d.step.period} step {d.step.step}: heads are given of {given}; {outside} of them lie outside"
            f" the bounds{far}"
        )
    least = max(float(np.nanmax(d.least)) for d in differences)
    if least:
        out.append(
            f"no exact solution of a deck between the two has these heads. If the run's deck is one of them, the run is"
            f" off by at least {short_down(least)} {unit} somewhere; else its deck lies outside"
        )
    else:
        out.append(
            "every given head lies between the bounds, as those of each exact solution of a deck between the two do."
            " How far the run is off from the solution of its own deck is what a listing of that deck alone says"
        )
    return out


def spoken(listing: Listing, differences: list[Difference], unit: str) -> list[str]:
    """How far heads are off from every exact solution of one deck."""
    out = []
    for d in differences:
        here = ~np.isnan(d.most)
        if not here.any():
            continue
        worst = int(np.nanargmax(d.least if np.nanmax(d.least) > 0 else d.most))
        cell = " ".join(map(str, listing.cells[worst]))
        outside = int((d.least[here] > 0).sum())
        part = "" if here.all() else f"; heads are given of {int(here.sum())} of the listing's {len(here)} cells alone"
        out.append(
            f"period {d.step.period} step {d.step.step}: off by at least"
            f" {short_down(float(np.nanmax(d.least)))} {unit} and at most {short_up(float(np.nanmax(d.most)))} {unit};"
            f" {outside} of {int(here.sum())} cells lie outside their pair; the worst is layer row column {cell}{part}"
        )
    least, most = (max(float(np.nanmax(getattr(d, name))) for d in differences) for name in ("least", "most"))
    steps = counted(len(differences), "step")
    where = "where heads are given" if any(np.isnan(d.most).any() for d in differences) else "everywhere"
    out.append(
        f"in {steps} in all: off by at least {short_down(least)} {unit} somewhere, and by at most"
        f" {short_up(most)} {unit} {where}"
    )
    return out
