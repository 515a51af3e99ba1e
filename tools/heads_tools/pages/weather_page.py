"""The page of a plan whatever the weather: maps of the least and the greatest drawdown, curves, where the water comes
from, and what may be said."""
from __future__ import annotations

from pathlib import Path

import numpy as np

from ..common.text import Problem, decimal_text, down, up
from ..deck.ranges import Range
from ..listing.plan_listing import PlanListing
from ..planning.difference_decks import ADDED, DRAWDOWN_LISTING, HIGH_DIFFERENCE, LOW_DIFFERENCE
from ..planning.drawdown import place_of
from ..planning.drawdown_weather import Asked, Cell, Effect, Weathered, looked_at, weathered
from ..planning.plan_decks import BASE, PLAN, write_file
from ..planning.weather_words import (
    SHOWN,
    cell_at,
    deepest,
    lines,
    may_be_said,
    rate,
    sentences,
    source_rows,
    source_spans,
    unit,
    verdict_of,
    when,
    worst,
    write_tables,
)
from ..planning.well_ranges import at_the_well, demand_hk, well_lines
from ..program.verdict import Verdict, status_of
from . import curves, maps
from .drawdown_page import MOST_MAPS, scale_of
from .looking import plan_for
from .map_page import NAME, write_weather_map
from .page import Page, write_page
from .page_facts import Facts, facts_of, facts_of_making
from .pictures import Album

NOTES = "drawdown.txt"


def grid(it: Weathered, values: np.ndarray) -> np.ndarray:
    return it.listing.grid(values / 1e9, it.model.shape)


def draw_maps(it: Weathered, album: Album, page: Page) -> None:
    """The least and the greatest drawdown in the last step, and in that of the deepest one where it is another."""
    last, deep = it.effects[-1], worst(it)
    shown = {"": last, **({"_deepest": deep} if deep is not last else {})}
    sides = [(more, effect, side) for more, effect in shown.items() for side in ("greatest", "least")]
    values = [grid(it, effect.high if side == "greatest" else effect.low) for _, effect, side in sides]
    if min(it.model.shape[1:]) == 1:
        return
    plan, scale = plan_for(it.model, it.model.shape, unit(it)), scale_of(values)
    for (more, effect, side), layers in zip(sides, values):
        for k in [k for k in range(len(layers)) if np.isfinite(layers[k]).any()][:MOST_MAPS]:
            name = f"{side}_layer{k + 1}{more}"
            about = f"{side.capitalize()} drawdown in layer {k + 1}, {when(it, effect)}"
            words = k + 1, about, f"{side} drawdown, {unit(it)}"
            maps.layer_map(album, name, plan, layers[k], *words, *scale)
            end = "upper" if side == "greatest" else "lower"
            caption = f"{about}: the {end} ends of the bounds, one scale for all; above 0 (red) the head is lowered"
            page.picture("Maps", f"{name}.png", caption, about if more or k else "")


def draw_curves(it: Weathered, album: Album, page: Page, cells: list[tuple[str, Cell]]) -> None:
    """Bands of the drawdown over time at some cells."""
    if len(it.effects) < 2:
        return
    ends = [it.model.times[effect.period, effect.step][1] for effect in it.effects]
    bands = []
    for name, cell in cells:
        at = it.listing.at(cell)
        low, high = (np.array([getattr(e, side)[at] for e in it.effects]) / 1e9 for side in ("low", "high"))
        bands.append((name, low, high))
    words = f"time, {it.model.time}", f"drawdown, {unit(it)}", "Drawdown over time"
    curves.bands(album, "drawdown_curves", np.array(ends, dtype=float), bands, *words, True)
    caption = "Drawdown over time, bands between its bounds; down is a lower head"
    page.picture("Curves", "drawdown_curves.png", caption)


def rows_of(it: Weathered, cells: list[tuple[str, Cell]]) -> list[list[str]]:
    last, deep = it.effects[-1], worst(it)
    out = []
    for name, cell in cells:
        at = it.listing.at(cell)
        for effect in [last] + ([deep] if deep is not last else []):
            pair = [decimal_text(int(side[at]), 9) for side in (effect.low, effect.high)]
            out.append([name, " ".join(map(str, cell)), when(it, effect), *pair])
    return out


def chosen(it: Weathered) -> list[tuple[str, Cell]]:
    """The cells that are asked for, after those where the drawdown is deepest, by names."""
    found: dict[Cell, str] = {}
    for effect in (worst(it), it.effects[-1]):
        cell = cell_at(it, deepest(effect))
        found.setdefault(cell, f"deepest, {place_of(cell)[3:]}")
    found |= {cell: name or place_of(cell)[3:] for cell, name in it.asked.cells.items()}
    return [(name, cell) for cell, name in found.items()]


def add_sources(it: Weathered, album: Album, page: Page, effects: list[Effect]) -> None:
    """What each term gives more under the plan: a table, and bars with both ends."""
    room = "Where the water comes from"
    for n, effect in enumerate(effects):
        page.text(
            room,
            f"What each term gives more under the plan, {when(it, effect)}, in {rate(it)}: by the sums of its least and"
            " greatest flows, and by balance, since all terms together give what the plan's wells take (ALL).",
        )
        name, about = f"sources{'_deepest' * n}", f"Where the plan's water comes from, {when(it, effect)}"
        title = f"The plan's water, {when(it, effect)}"
        curves.span_bars(album, name, source_spans(effect), f"more under the plan, {rate(it)}", title)
        page.picture(room, f"{name}.png", f"{about}: solid up to the end nearer to 0, pale up to the other one")
        page.table(room, ["term", "from", "to"], source_rows(it, effect, 6))


def add_zones(it: Weathered, page: Page) -> None:
    """What flows more between zones under the plan, where the listing says it."""
    flows = it.listing.steps[-1].zones if it.is_listed else []
    if flows:
        places = it.listing.flow_places
        rows = [[f"{a} to {b}", down(low, places, SHOWN), up(high, places, SHOWN)] for a, b, low, high in flows]
        page.text("Zones", f"What flows more between zones under the plan, {when(it, it.effects[-1])}, in {rate(it)}.")
        page.table("Zones", ["zones", "from", "to"], rows)


def commands(it: Weathered) -> list[str]:
    """How the listings are made and checked again, in the folder of the decks."""
    words = " ".join(it.asked.words())
    if it.is_listed:
        to = " --to base_high.nam" * (it.high is not it.base)
        wide = " --wide" * it.asked.has_wide
        checked = f"heads check {BASE}.nam {DRAWDOWN_LISTING} --plan {ADDED}{to}{wide}"
        made = f"heads run {BASE}.nam --plan {ADDED}{to} {words}".rstrip() + f" > {DRAWDOWN_LISTING}"
        return [made, checked] if it.is_certified else [made]
    ends = {BASE: "base_high", PLAN: "plan_high"} if it.high is not it.base else {BASE: "", PLAN: ""}
    out = []
    for stem, end in ({} if it.asked.is_any else ends).items():
        out.append((f"{stem}.nam" + f" --to {end}.nam" * bool(end), f"{stem}.heads"))
    out.append((f"{LOW_DIFFERENCE}.nam --to {HIGH_DIFFERENCE}.nam", "difference.heads"))
    lines = []
    for decks, listing in out:
        nam, *rest = decks.split(" ", 1)
        checked = " ".join([nam, listing, *rest, *["--wide"] * it.asked.has_wide])
        lines += [f"heads run {decks} {words}".rstrip() + f" > {listing}", f"heads check {checked}"]
    return lines


def spelled_as(it: Weathered) -> str:
    other = f", base_high.nam is {it.high.name}" if it.high is not it.base else ""
    is_split = bool(it.heads) and not it.is_listed
    steps = " Each step is a period of the difference decks where its length can be written exactly." * is_split
    wells = f" {ADDED} has the plan's wells." * it.is_listed
    return f"base.nam is {it.base.name}{other}, as `heads write` puts it.{wells}{steps}"


def facts_of_listings(it: Weathered) -> Facts:
    """What the listings are: one of all three, or that of the difference decks and those of both plans' heads."""
    if it.is_listed:
        size = " x ".join(map(str, it.model.shape))
        model = f"{it.base.name}: {size} cells (layers, rows, columns)"
        return [*facts_of(it.listing, unit(it), None, "Drawdown"), ("Drawdown's model", model)]
    both = (fact for name, each in zip(("Base", "Plan"), it.heads) for fact in facts_of(each, unit(it), None, name))
    return [*facts_of(it.listing, unit(it), it.model, "Difference"), *both]


def goodness(it: Weathered) -> bool | None:
    """Whether the verdict is good; None where nothing was checked, or a step isn't proved."""
    if it.holds:
        return True if it.is_listed else None
    return None if all(seen.status is None for seen in it.verdicts) else False


def draw(it: Weathered, folder: Path, files: list[str], at_well: list[str], again: list[str]) -> None:
    """The page. `again`: how the listings are made once more."""
    page = Page(f"{it.asked.base.name}: what {it.plan.name} does, {it.weather}", files=files)
    page.verdict = verdict_of(it)
    page.is_good = goodness(it)
    page.facts = [*facts_of_listings(it), *facts_of_making(it.verdicts)]
    for text in sentences(it)[1:]:
        page.say(text)
    for text in may_be_said(it):
        page.text("What may be said", text)
    cells = chosen(it)
    page.text("Drawdown", f"Base less plan in {unit(it)}: above 0 where the plan lowers the head.")
    page.table("Drawdown", ["place", "layer row column", "at the end of", "from", "to"], rows_of(it, cells))
    for text in at_well:
        page.text("HK within ranges", text)
    if about := write_weather_map(it, folder, page):
        page.map("Maps", NAME, about)
    album = Album(folder)
    draw_maps(it, album, page)
    draw_curves(it, album, page, cells)
    last, deep = it.effects[-1], worst(it)
    add_sources(it, album, page, [last] + ([deep] if deep is not last else []))
    add_zones(it, page)
    for line in again:
        page.text("Once more", line)
    write_page(page, folder)


def drawdown_weather(asked: Asked, folder: Path, hk: Range | None = None) -> tuple[list[str], int]:
    """Decks, listings, tables and a page of what a plan does whatever the weather; what there is to say, and the first
    status of a check that isn't 0. `hk`: factors of HK between which the drawdown at the plan's well is asked for."""
    if hk:
        demand_hk(asked, hk)
    it = weathered(asked, folder)
    found = at_the_well(it, hk, folder) if hk else None
    at_well = well_lines(found) if found else []
    once_more = f"{spelled_as(it)} In this folder, with the program whose sha256 stands above:"
    again = [once_more, *(f"`{line}`" for line in commands(it))]
    draw(it, folder, [*write_tables(it, folder), it.listing.path.name, NOTES], at_well, again)
    said = [*sentences(it), *lines(it), *at_well, *may_be_said(it)]
    write_file(folder / NOTES, ("\n".join([*said, spelled_as(it), *commands(it)]) + "\n").encode("utf-8"))
    verdicts = it.verdicts + (found.verdicts if found else [])
    return said, next((status for seen in verdicts if (status := status_of(asked.base, seen))), 0)


def look_at_plan(asked: Asked, listing: PlanListing, verdict: Verdict, folder: Path) -> list[str]:
    """Tables and a page of a plan's listing that was made before; what there is to say."""
    it = looked_at(asked, listing, verdict)
    draw_plan(it, folder)
    return [*sentences(it), *lines(it), *may_be_said(it)]


def draw_plan(it: Weathered, folder: Path) -> None:
    draw(it, folder, write_tables(it, folder), [], [])


def folder_of(asked: Asked, folder: Path | None) -> Path:
    """The folder to write into: the one that is named, else one beside the base deck."""
    out = folder or asked.base.with_name(f"{asked.base.stem}-{asked.plan.stem}.drawdown")
    if any(out.resolve() == path.resolve().parent for path in (asked.base, asked.plan)):
        raise Problem(f"{out} has the deck or the plan: the new decks go into another folder")
    return out
