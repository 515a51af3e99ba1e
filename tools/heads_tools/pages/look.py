"""look: tables, pictures and one page of a listing."""
from __future__ import annotations

from pathlib import Path
from typing import Sequence

import numpy as np

from ..common.text import Problem
from ..deck.model import Model
from ..listing.listing import Cell, Listing
from ..listing.tables import write_tables
from ..program.verdict import Verdict
from .look_flows import Flows
from .look_others import Others
from .look_sections import Sections
from .look_tops import Tops
from .looking import HEADS, title_of
from .map_page import NAME, not_whole, write_map
from .page import write_page

__all__ = ["Look", "look", "look_at_given", "title_of"]
MOST_STEPS = 400


class Look(Sections, Tops, Flows, Others):
    """All parts of the page of a listing."""


def look(
    listing: Listing,
    folder: Path,
    model: Model | None = None,
    cells: Sequence[Cell] = (),
    given: Path | None = None,
    is_every: bool = False,
    verdict: Verdict | None = None,
    zones: np.ndarray | None = None,
    base: Listing | None = None,
    has_svg: bool = False,
) -> list[str]:
    """Writes tables, pictures and the page of a listing into a folder; what there is to say about it."""
    for cell in cells:
        listing.at(cell)
    if is_every and len(listing.steps) > MOST_STEPS:
        raise Problem(f"--every draws at most {MOST_STEPS} steps, and these are {len(listing.steps)}")
    it = Look(listing, folder, model, verdict, has_svg)
    make_folder(folder)
    if warning := not_whole(listing):
        it.page.say(warning)
    last = listing.steps[-1]
    it.jobs.append(lambda: add_map(it, base, zones))
    it.add_steps(listing.steps if is_every else [last])
    it.add_below_top()
    it.add_sections(last, *(cells[0][1:] if cells else it.place[1:]))
    it.add_hydrographs(list(cells))
    it.add_budget()
    it.add_zones(zones)
    if base:
        it.add_minus(base)
    if given:
        it.add_given(given)
    return finish(it)


def look_at_given(listing: Listing, folder: Path, model: Model | None, verdict: Verdict, given: Path) -> None:
    """The page of a comparison with given heads alone."""
    it = Look(listing, folder, model, verdict)
    make_folder(folder)
    it.add_given(given)
    finish(it)


def look_at_map(
    listing: Listing,
    folder: Path,
    model: Model | None = None,
    verdict: Verdict | None = None,
    zones: np.ndarray | None = None,
    base: Listing | None = None,
) -> list[str]:
    """Writes the interactive map alone; what there is to say about it."""
    it = Look(listing, folder, model, verdict)
    make_folder(folder)
    about = write_map(it, base, zones, is_alone=True)
    if not about:
        raise Problem(f"{listing.path} has more cells than a map has room for: look without --page draws pictures")
    tops = it.below_top.sentences(it.verdict.is_certified) if it.below_top else []
    warning = not_whole(listing)
    return [it.verdict.sentence, f"{listing.summary()} in {it.unit}", *([warning] if warning else []), *tops]


def add_map(it: Look, base: Listing | None, zones: np.ndarray | None) -> None:
    """The map to point at, beside the page, with a link to it."""
    if about := write_map(it, base, zones):
        it.page.map(HEADS, NAME, about)


def make_folder(folder: Path) -> None:
    try:
        folder.mkdir(parents=True, exist_ok=True)
    except FileExistsError:
        raise Problem(f"{folder} is a file, and a folder is due") from None


def finish(it: Look) -> list[str]:
    it.draw()
    it.page.files = write_tables(it.listing, it.folder, it.model.times if it.model else None)
    it.tell_facts()
    write_page(it.page, it.folder)
    told = [it.made_by] if it.made_by else []
    return [it.verdict.sentence, f"{it.listing.summary()} in {it.unit}", *told, *it.page.sentences]
