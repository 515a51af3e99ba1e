"""Which share of a well's water each budget term gives, for a well at each of some cells: one run with that well as a
plan for each, whose listing bounds what each term gives more. Of rivers, drains and general heads the shares of
reaches, too, which this module computes from the listed heads and drawdowns."""
from __future__ import annotations

from dataclasses import dataclass, field
from pathlib import Path
from typing import Iterable

import numpy as np

from ..common.progress import bar
from ..common.spelling import exact
from ..common.text import Problem, counted
from ..deck.deck import Entry
from ..deck.model import Model, model_of
from ..listing.made_by import drop_words
from ..listing.plan_listing import PlanListing
from ..program.program import lists_plans
from ..program.verdict import Verdict
from .difference_decks import DRAWDOWN_LISTING, write_added
from .drawdown_weather import Asked, Cell, plan_listed, weather_of
from .plan_decks import Plan, Spelled
from .plan_sources import Pair, listed_sources, narrowed, sums_of, without_equation
from .shares import Branch, Weather, heads_of

PLACES = 9


@dataclass
class Well:
    """What a well at a cell takes from each term and reach until the end of each step: the least and the greatest share
    of its rate, in 10^-PLACES; the verdict on its listing, and that listing's sha256."""

    cell: Cell
    steps: list[tuple[int, int, dict[str, Pair]]]
    verdict: Verdict
    sha256: str


@dataclass
class Captures:
    """The wells that were tried, each of the same rate, and why others have no bounds."""

    asked: Asked
    rate: str
    base: Spelled
    high: Spelled
    model: Model
    wells: list[Well] = field(default_factory=list)
    without: dict[Cell, str] = field(default_factory=dict)
    has_reaches: bool = False

    @property
    def names(self) -> list[str]:
        """The terms and reaches that give anything to any well."""
        named = dict.fromkeys(name for well in self.wells for _, _, shares in well.steps for name in shares)
        return [n for n in named if any(shares[n] != (0, 0) for w in self.wells for _, _, shares in w.steps)]


def cells_asked(base: Spelled, cells: Iterable[Cell], layer: int, every: int) -> list[Cell]:
    """The cells that are named; where there are none, each `every`-th row and column of a layer, of those with an
    equation in every period."""
    periods = range(len(base.deck.periods))
    idle = np.any([without_equation(base, n) for n in periods], axis=0)
    if named := list(cells):
        if wrong := [cell for cell in named if idle[tuple(n - 1 for n in cell)]]:
            raise Problem("cell {},{},{} has a given head in some period: a well takes nothing there".format(*wrong[0]))
        return named
    if not 1 <= layer <= base.deck.nlay:
        raise Problem(f"{base.name} has {counted(base.deck.nlay, 'layer')}, and no layer {layer}")
    first = (every - 1) // 2
    rows, cols = range(first, base.deck.nrow, every), range(first, base.deck.ncol, every)
    found = [(layer, i + 1, j + 1) for i in rows for j in cols if not idle[layer - 1, i, j]]
    if not found:
        raise Problem(f"no such cell of layer {layer} has an equation")
    return found


def captured(
    asked: Asked, folder: Path, rate: str, layer: int = 1, every: int = 1, reaches: np.ndarray | None = None
) -> Captures:
    """Runs and checks a well at each cell that is asked for, in a folder. `reaches`: of each cell of the grid the
    number of its reach, 0 for none."""
    if not lists_plans():
        raise Problem("capture needs a program `heads` that lists what a plan does (run --plan), and this one doesn't")
    if exact(rate) <= 0:
        raise Problem("the rate of capture is what the well takes: a number above 0")
    base, high = weather_of(asked, folder)
    cells = cells_asked(base, asked.cells, layer, every)
    out = Captures(asked, rate, base, high, model_of(base.deck), has_reaches=reaches is not None)
    for cell in bar(cells, "wells", "well"):
        entry = Entry(cell, [f"-{rate}"], "", 0)
        plan = Plan("well", [[entry] for _ in base.deck.periods])
        write_added(folder, plan)
        try:
            listing, verdict = plan_listed(folder, high is not base, asked, is_told=False)
        except Problem as error:
            out.without[cell] = str(error)
            continue
        out.wells.append(well_of(out, plan, cell, listing, verdict, reaches))
        drop_words(folder / DRAWDOWN_LISTING)
        (folder / DRAWDOWN_LISTING).unlink()
    if not out.wells:
        raise Problem(f"no well has bounds: {next(iter(out.without.values()))}")
    return out


def well_of(
    it: Captures, plan: Plan, cell: Cell, listing: PlanListing, verdict: Verdict, reaches: np.ndarray | None
) -> Well:
    steps = []
    for n, step in enumerate(listing.drawdown.steps):
        found = listed_sources(listing.sources[n], listing.drawdown.flow_places, plan, it.base, step.period - 1)
        shares = found.terms | (reaches_of(it, listing, n, found.terms, reaches) if reaches is not None else {})
        steps.append((step.period, step.step, {name: share(pair, found.takes) for name, pair in shares.items()}))
    return Well(cell, steps, verdict, listing.drawdown.sha256)


def share(pair: Pair, takes: Pair) -> Pair:
    """The part of what a well takes, in 10^-PLACES, rounded outward."""
    low, high = (end * 10**PLACES for end in pair)
    return min(low // each for each in takes), max(-(-high // each) for each in takes)


def reaches_of(
    it: Captures, listing: PlanListing, n: int, terms: dict[str, Pair], reaches: np.ndarray
) -> dict[str, Pair]:
    """What each reach gives more: by the sums of its branches, and by what the rest of its term leaves."""
    step = listing.drawdown.steps[n]
    heads = heads_of(listing.base, listing.planned, step.period, (step.step,))
    idle = without_equation(it.base, step.period - 1)
    parts: dict[str, list[Branch]] = {}
    for each in Weather(it.base, it.high).branches(step.period - 1, heads):
        at = each.cell[0] - 1, each.cell[1] - 1, each.cell[2] - 1
        if not idle[at]:
            parts.setdefault(f"{each.term}, reach {reaches[at]}", []).append(each)
    drawdown, places = (step.low, step.high), listing.drawdown.places
    sums = {name: sums_of(branches, drawdown, places) for name, branches in parts.items()}
    return {
        name: narrowed(name, {other: s for other, s in sums.items() if same_term(name, other)}, terms[term_of(name)])
        for name in sorted(sums)
        if not name.endswith(" 0")
    }


def term_of(name: str) -> str:
    return name.split(",")[0]


def same_term(one: str, two: str) -> bool:
    return term_of(one) == term_of(two)
