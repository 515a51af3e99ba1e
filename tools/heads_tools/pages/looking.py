"""What all parts of a listing's page share: listing, model, plan, verdict, and what is still to be drawn."""
from __future__ import annotations

from pathlib import Path
from typing import Callable

import numpy as np

from ..listing.below_top import ALL_FULL, ALL_LISTED_FULL, NO_TOPS, BelowTop
from ..deck.deck import Entry
from ..listing.listing import Cell, Listing, Step
from ..listing.made_by import made_by
from ..deck.model import Model, value
from .page import Page
from .page_facts import facts_of, facts_of_making
from .pictures import Album, Plan, plan_of
from ..common.progress import bar
from ..common.text import LENGTHS, Problem, decimal_text, one_of, read_text, with_unit
from ..program.verdict import Verdict, not_checked

ROOMS = "Heads", "Below the tops", "Sections", "Cells over time", "Budget", "Zones", "Given heads", "Difference"
HEADS, TOPS, SECTIONS, HYDROGRAPHS, BUDGET, ZONES, GIVEN, MINUS = ROOMS


def title_of(nam: Path) -> str:
    """The model's own title: the first comment of its name file, else the file's name."""
    lines = (line[1:].strip() for line in read_text(nam).split("\n") if line.startswith("#"))
    return next((line for line in lines if line), nam.name)


class Looking:
    """A listing, its page in a folder, and what is still to be drawn on it (`jobs`), in order of the page."""

    def __init__(
        self,
        listing: Listing,
        folder: Path,
        model: Model | None = None,
        verdict: Verdict | None = None,
        has_svg: bool = False,
    ):
        if not listing.steps:
            raise Problem(f"{listing.path} has no whole step: it ends with {listing.end or 'a part of a step'}")
        if not len(listing.cells):
            raise Problem(f"{listing.path} has no cell with flow: there is nothing to draw")
        self.listing, self.folder, self.model = listing, folder, model
        self.shape = model.shape if model else listing.shape
        if any(a > b for a, b in zip(listing.shape, self.shape)):
            raise Problem(
                f"{listing.path} has cells up to {listing.shape}, and the model's grid is {self.shape}: another model"
            )
        self.unit = model.length if model else LENGTHS.get(listing.unit, "length units")
        self.time = model.time if model else "time unit"
        self.elements = elements(model) if model else {}
        self.below_top = BelowTop(model.deck, listing) if model else None
        self.plan = plan_for(model, self.shape, self.unit)
        self.verdict = verdict or not_checked(listing)
        said = f"{self.verdict.title}. {self.verdict.sentence}" if model else self.verdict.sentence
        self.page = Page(
            title_of(model.deck.path) if model else self.verdict.title,
            note=self.verdict.note,
            verdict=said,
            has_svg=has_svg,
        )
        self.page.is_good = True if self.verdict.is_certified else None if self.verdict.status is None else False
        self.page.rooms = {room: [] for room in ROOMS}
        self.made_by = made_by(listing)
        self.album = Album(folder, has_svg)
        self.jobs: list[Callable[[], None]] = []

    def when(self, step) -> str:
        times = self.model.times if self.model else {}
        end = f", {with_unit(times[step.period, step.step][1], self.time)}" if (step.period, step.step) in times else ""
        return f"period {step.period} step {step.step}{end}"

    def grid(self, values: np.ndarray) -> np.ndarray:
        return self.listing.grid(values / 1e9, self.shape)

    def is_below(self, step: Step) -> np.ndarray:
        """For each cell whether every exact head lies below its top at the end of a step; nowhere where no top is
        known."""
        return self.below_top.is_below(step) if self.below_top else np.zeros(len(step.low), bool)

    def draw(self) -> None:
        """Does what is still to be drawn."""
        for job in bar(self.jobs, "pictures", "picture"):
            job()
        self.jobs.clear()

    def widest_of(self, steps: list[Step]) -> str:
        name = "ranges" if self.listing.is_span else "pairs"
        return f"The {name} are at most {decimal_text(max(int(s.width().max()) for s in steps), 9)} {self.unit} wide"

    @property
    def place(self) -> Cell:
        """The cell whose head is farthest from the mean in the last step, of those whose head isn't known."""
        last = self.listing.steps[-1]
        low, is_open = last.low.astype(float), last.width() > 0
        k, i, j = self.listing.cells[int((np.abs(low - low.mean()) * (is_open | ~is_open.any())).argmax())].tolist()
        return k, i, j

    @property
    def rate(self) -> str:
        return f"{self.unit}³ per {one_of(self.time)}"

    def tell_facts(self) -> None:
        facts = facts_of(self.listing, self.unit, self.model)
        if self.below_top is None:
            facts.append(("Tops of cells", NO_TOPS))
        elif not self.below_top.layers:
            facts.append(("Tops of cells", ALL_FULL if self.verdict.is_certified else ALL_LISTED_FULL))
        self.page.facts = facts + facts_of_making([self.verdict])


def elements(model: Model) -> dict[str, list[tuple[Cell, list[float]]]]:
    """The entries of each list in the last period that has new ones: cell and elevations (stage, bottom, drain)."""
    columns: dict[str, tuple[int, ...]] = {"WEL": (), "RIV": (0, 2), "DRN": (0,), "GHB": (0,), "CHD": (1,)}
    out = {}
    for kind, places in columns.items():
        entries: list[Entry] = next((p for p in reversed(model.deck.lists.get(kind, [])) if p is not None), [])
        out[kind] = [(e.cell, [value(e.words[n]) for n in places]) for e in entries]
    return out


def plan_for(model: Model | None, shape: tuple[int, ...], unit: str) -> Plan:
    """The plan of a model with its entries, or one of equal widths where the model isn't known."""
    if model is None:
        return plan_of(np.ones(shape[2]), np.ones(shape[1]), unit, "columns, rows")
    cells = {kind: np.array([cell for cell, _ in found], int).reshape(-1, 3) for kind, found in elements(model).items()}
    entries = cells | {"CHD": np.concatenate([cells["CHD"], np.argwhere(model.ibound < 0) + 1])}
    top = np.concatenate([model.top[None], (model.bottom - model.bed)[:-1]])
    return plan_of(model.delr, model.delc, unit, unit, entries=entries, top=top, bottom=model.bottom)
