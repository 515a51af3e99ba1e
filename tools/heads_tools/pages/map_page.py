"""map.html: an interactive map of a listing, or of what a plan does, in one file without a library or a server."""
from __future__ import annotations

import json
from functools import cache
from pathlib import Path
from typing import Protocol, Sequence, TypeVar

import numpy as np

from ..common.text import Problem
from ..common.whole_files import whole_file
from ..deck.model import Model
from ..listing.below_top import units_at
from ..listing.listing import Listing, Step
from ..planning.drawdown import Drawdown
from ..planning.drawdown_weather import Effect, Weathered
from .looking import Looking, plan_for
from .map_data import CHANGE, FALL, HEAD, Difference, Field, Scene, bottoms_of
from .one_page import one_script, policy
from .page import Page
from .templates import rendered

PARTS = Path(__file__).parents[1] / "map"
NAME = "map.html"
MOST_PAIRS = 1_500_000


class Named(Protocol):
    """What has the period and the number of a step."""

    @property
    def period(self) -> int: ...

    @property
    def step(self) -> int: ...


Each = TypeVar("Each", bound=Named)


def steps_of(steps: Sequence[Each], cells: int, fields: int) -> list[Each]:
    """The steps that a map has room for, the last among them; none where one has too many cells."""
    room = MOST_PAIRS // max(1, cells * fields)
    return list(steps[::-1][:: -(-len(steps) // room)][::-1]) if room else []


def names_of(steps: Sequence[Named], model: Model | None) -> list[tuple[int, int, float]]:
    """Period and step with the time at its end, or with its number where no times are known."""
    times = model.times if model else {}
    return [(s.period, s.step, times.get((s.period, s.step), (0, n))[1]) for n, s in enumerate(steps, 1)]


def heads_of(name: str, steps: Sequence[Step]) -> Field:
    return Field(name, HEAD, np.array([s.low for s in steps]), np.array([s.high for s in steps]))


def source_of(*listings: Listing) -> str:
    named = ", ".join(f"{it.path.name}, sha256 {it.sha256}" for it in listings)
    return f"Made by heads-tools, which isn't proved, from {named}"


def scene_of(
    page: Page,
    listings: Sequence[Listing],
    model: Model | None,
    unit: str,
    steps: Sequence[Named],
    fields: list[Field | Difference],
    zones: np.ndarray | None = None,
) -> Scene:
    """The scene of some fields at the cells of the first listing. The tops of cells are for heads alone: of changes it
    isn't asked whether they lie below them."""
    listing, has_heads = listings[0], fields[0].kind == HEAD
    cells, shape = listing.cells, model.shape if model else listing.shape
    return Scene(
        page.title,
        said_of(page, listings),
        source_of(*listings),
        shape,
        plan_for(model, shape, unit),
        cells,
        names_of(steps, model),
        model.time if model else "",
        fields,
        units_at(model.deck, cells, model.deck.top_of) if model and has_heads else None,
        bottoms_of(model.deck, cells) if model and has_heads else None,
        zones[tuple((cells - 1).T)] if zones is not None else None,
        page.is_good is True,
    )


def not_whole(listing: Listing) -> str:
    """What has to be said of a listing that isn't that of a whole run; nothing of another."""
    if listing.is_whole:
        return ""
    return (
        f"NOT A WHOLE RUN: the listing ends with `{listing.end or 'a part of a step'}`. "
        "Its pairs are bounds only where a run ends with END."
    )


def said_of(page: Page, listings: Sequence[Listing]) -> str:
    """The verdict below the title, after what is wrong with the listings."""
    return " ".join([*filter(None, map(not_whole, listings)), page.verdict]).replace("`", "")


def shared(listing: Listing, base: Listing | None) -> list[Step]:
    """The steps of a listing, those alone that the other has, too."""
    if base is None:
        return listing.steps
    if not np.array_equal(listing.cells, base.cells):
        raise Problem(f"{base.path} has other cells with flow than {listing.path}: their heads can't be subtracted")
    others = {(s.period, s.step) for s in base.steps}
    return [s for s in listing.steps if (s.period, s.step) in others]


def write_map(it: Looking, base: Listing | None = None, zones: np.ndarray | None = None, is_alone: bool = False) -> str:
    """Writes the map of a listing: what there is to say of it beside its link; nothing where it isn't written.
    `is_alone`: no other page is beside it."""
    of = shared(it.listing, base)
    steps = steps_of(of, len(it.listing.cells), 2 if base else 1)
    if not steps:
        return ""
    fields: list[Field | Difference] = [heads_of("head", steps)]
    if base:
        fields += [heads_of(f"head of {base.path.name}", same(base, steps))]
        fields += [Difference(f"head less that of {base.path.name}", CHANGE, (0, 1))]
    listings = [it.listing, *([base] if base else [])]
    about = left_out(len(of), len(steps), is_alone)
    write(it.folder, it.page, scene_of(it.page, listings, it.model, it.unit, steps, fields, zones), about, not is_alone)
    return f"layers, steps, sections, and the two heads of the cell that you point at. {about}".strip()


def write_drawdown_map(it: Drawdown, folder: Path, page: Page) -> str:
    """The same of a plan beside its base: heads of both, and the drawdown between them."""
    of = shared(it.plan, it.base)
    steps = steps_of(of, len(it.plan.cells), 2)
    if not steps:
        return ""
    heads = heads_of("head", steps), heads_of(f"head of {it.base.path.name}", same(it.base, steps))
    fields: list[Field | Difference] = [*heads, Difference("drawdown", FALL, (1, 0))]
    about = left_out(len(of), len(steps), False)
    write(folder, page, scene_of(page, [it.plan, it.base], it.model, it.unit, steps, fields), about, True)
    return f"the drawdown and both heads of the cell that you point at. {about}".strip()


def write_weather_map(it: Weathered, folder: Path, page: Page) -> str:
    """The same of what a plan does whatever the weather: its drawdown, beside the heads with the plan and without it
    where these are listed."""
    effects = steps_of(it.effects, len(it.listing.cells), 1 + len(it.heads))
    if not effects:
        return ""
    low, high = (np.array([getattr(effect, side) for effect in effects]) for side in ("low", "high"))
    heads = [heads_of(name, same(each, effects)) for name, each in zip(("head without the plan", "head"), it.heads)]
    fields: list[Field | Difference] = [*heads[::-1], Field("drawdown", FALL, low, high)]
    about = left_out(len(it.effects), len(effects), False)
    listings = [it.listing] if it.is_listed else [it.listing, *it.heads]
    write(folder, page, scene_of(page, listings, it.model, it.model.length, effects, fields), about, True)
    both = " and those of both plans' heads" if heads else ""
    return f"the bounds of the drawdown{both} of the cell that you point at. {about}".strip()


def same(listing: Listing, steps: Sequence[Step] | Sequence[Effect]) -> list[Step]:
    """The steps of a listing that have the periods and numbers of others."""
    return [listing.step_at(s.period, s.step) for s in steps]


def left_out(count: int, kept: int, is_alone: bool) -> str:
    if kept == count:
        return ""
    return f"{kept} of {count} steps: the others are in the {'listing' if is_alone else 'tables'}."


@cache
def parts() -> tuple[str, str, str]:
    """The page's script, style and elements."""
    names = [*(PARTS / "scripts.txt").read_text(encoding="utf-8").split(), "packed.mjs", "begin.mjs"]
    script = one_script(PARTS / name for name in names)
    style = "\n".join((PARTS / name).read_text(encoding="utf-8") for name in ("page.css", "map.css"))
    return script, style, (PARTS / "parts.html").read_text(encoding="utf-8")


def write(folder: Path, page: Page, scene: Scene, about: str, has_links: bool) -> None:
    script, style, elements = parts()
    data = json.dumps(scene.data(), separators=(",", ":")).replace("<", "\\u003c")
    about = f"{scene.source}. {about}".strip()
    values = {"policy": policy(script, style), "style": style, "script": script, "map": elements, "data": data}
    with whole_file(folder / NAME) as file:
        file.write(
            rendered("map.html", page=page, verdict=scene.verdict, about=about, has_links=has_links, **values)
        )
