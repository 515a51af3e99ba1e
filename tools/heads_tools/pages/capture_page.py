"""Tables, maps and a page of which share of a well's water each term gives."""
from __future__ import annotations

from pathlib import Path

import numpy as np
from matplotlib.colors import Normalize

from ..common.text import counted, decimal_text, down, one_of, up
from ..common.whole_files import whole_file
from ..planning.capture import PLACES, Captures, Well, captured
from ..planning.drawdown import place_of
from ..planning.drawdown_weather import Asked, differing, said_between
from ..planning.plan_decks import write_file
from ..program.verdict import NO_PLANS, status_of
from . import maps
from .looking import plan_for
from .page import Page, write_page
from .page_facts import facts_of_making
from .pictures import Album

NOTES = "capture.txt"
MOST_ROWS, MOST_REASONS = 40, 5
COLOURS = "YlGnBu"
SAME = "the same with the well as without it, and chosen anew at each step"
COMPUTED = (
    "The shares of reaches are computed by heads-tools, which isn't proved, from the listed heads and drawdowns; those"
    " of terms are the program's own bounds"
)


def capture(
    asked: Asked, folder: Path, rate: str, layer: int, every: int, reaches: np.ndarray | None
) -> tuple[list[str], int]:
    """Runs the wells, writes the results into a folder; what there is to say, and the first status of a check that
    isn't 0."""
    it = captured(asked, folder, rate, layer, every, reaches)
    files = write_tables(it, folder)
    said = sentences(it)
    draw(it, folder, files, said)
    write_file(folder / NOTES, ("\n".join(said) + "\n").encode("utf-8"))
    return said, next((status for well in it.wells if (status := status_of(asked.base, well.verdict))), 0)


def weather(it: Captures) -> str:
    chosen = f", {SAME}" * bool(differing(it.base, it.high))
    return said_between(it.base, it.high) + chosen


def holds(it: Captures) -> bool:
    return all(well.verdict.holds for well in it.wells)


def verdict_of(it: Captures) -> str:
    count = counted(len(it.wells), "listing")
    if all(well.verdict.is_certified for well in it.wells):
        return f"heads check: CERTIFIED, {count}. Each exact share lies between its two numbers."
    if holds(it):
        return f"heads run: END, {count}. Each exact share lies between its two numbers. Not checked: {NO_PLANS}."
    wrong = [well for well in it.wells if not well.verdict.holds]
    at = ", ".join(place_of(well.cell)[3:] for well in wrong[:3])
    return f"NOT CERTIFIED: {counted(len(wrong), 'listing')} ({at}). Their shares are no bounds."


def rate_of(it: Captures) -> str:
    return f"{it.rate} {it.model.length}³ per {one_of(it.model.time)}"


def last_shares(well: Well) -> dict[str, tuple[int, int]]:
    return well.steps[-1][2]


def percent(pair: tuple[int, int]) -> str:
    low, high = down(pair[0], PLACES - 2, 3), up(pair[1], PLACES - 2, 3)
    return f"{low} to {high} %"


def sentences(it: Captures) -> list[str]:
    period, step, _ = it.wells[0].steps[-1]
    when = f"at the end of period {period} step {step}"
    text = weather(it)
    wells = f"a well of {rate_of(it)} at each of {counted(len(it.wells), 'cell')}"
    out = [verdict_of(it), f"{text[0].upper()}{text[1:]}: {wells}."]
    for name in it.names:
        low, high = (sorted(it.wells, key=lambda w: last_shares(w).get(name, (0, 0))[n])[-n] for n in (0, 1))
        out.append(
            f"{name}: from {percent(last_shares(low).get(name, (0, 0)))} {place_of(low.cell)} to"
            f" {percent(last_shares(high).get(name, (0, 0)))} {place_of(high.cell)}, {when}."
        )
    if it.has_reaches:
        out.append(f"{COMPUTED}.")
    for cell, why in list(it.without.items())[:MOST_REASONS]:
        out.append(f"No bounds for a well {place_of(cell)}: {why}")
    if len(it.without) > MOST_REASONS:
        out.append(f"No bounds for {len(it.without) - MOST_REASONS} more wells: their lines are missing in the tables.")
    return out


def write_tables(it: Captures, folder: Path) -> list[str]:
    """capture.csv: the shares of each well, step and term; wells.csv: what was said of each well's listing."""
    with whole_file(folder / "capture.csv", is_own=True) as file:
        file.write("layer,row,col,period,step,term,share_lower,share_upper\n")
        for well in it.wells:
            cell = ",".join(map(str, well.cell))
            for period, step, shares in well.steps:
                for name in it.names:
                    pair = (decimal_text(n, PLACES) for n in shares.get(name, (0, 0)))
                    named = f'"{name}"' if "," in name else name
                    file.write(f"{cell},{period},{step},{named},{','.join(pair)}\n")
    with whole_file(folder / "wells.csv", is_own=True) as file:
        file.write("layer,row,col,verdict,listing_sha256\n")
        for well in it.wells:
            said = f"heads run: {well.verdict.last}" if well.verdict.is_run else f"heads check: {well.verdict.last}"
            file.write(f"{','.join(map(str, well.cell))},{said},{well.sha256}\n")
    return ["capture.csv", "wells.csv", NOTES]


def grid(it: Captures, name: str, side: int) -> np.ndarray:
    """The shares of a name at the wells' cells, at the end of the last step, in percent."""
    out = np.full(it.model.shape, np.nan)
    for well in it.wells:
        k, i, j = (n - 1 for n in well.cell)
        out[k, i, j] = last_shares(well).get(name, (0, 0))[side] / 10 ** (PLACES - 2)
    return out


def draw_maps(it: Captures, folder: Path, page: Page) -> None:
    if min(it.model.shape[1:]) == 1:
        return
    album, plan = Album(folder), plan_for(it.model, it.model.shape, it.model.length)
    for number, name in enumerate(it.names, 1):
        for side, word in enumerate(("least", "greatest")):
            layers = grid(it, name, side)
            for k in [k for k in range(len(layers)) if np.isfinite(layers[k]).any()]:
                file, about = f"{word}_{number}_layer{k + 1}", f"{word.capitalize()} share of {name}, layer {k + 1}"
                label = f"{word} share of the well's water, %"
                words = k + 1, about, label, COLOURS, Normalize(0, 100)
                maps.layer_map(album, file, plan, layers[k], *words, grey="not asked, or no flow")
                caption = f"{about}: of the water of a well in the cell"
                page.picture(name, f"{file}.png", caption, about if side == 0 else "")


def draw(it: Captures, folder: Path, files: list[str], said: list[str]) -> None:
    about = f"where the water of a well of {rate_of(it)} comes from, {said_between(it.base, it.high)}"
    page = Page(f"{it.asked.base.name}: {about}", files=files, verdict=said[0])
    page.is_good = True if holds(it) else False
    page.facts = facts_of_making([well.verdict for well in it.wells])
    for text in said[1:]:
        page.say(text)
    draw_maps(it, folder, page)
    rows = [
        [" ".join(map(str, well.cell)), name, *(decimal_text(n, PLACES) for n in last_shares(well)[name])]
        for well in it.wells[:MOST_ROWS]
        for name in it.names
        if name in last_shares(well)
    ]
    more = "" if len(it.wells) <= MOST_ROWS else f" The first {MOST_ROWS} wells; all are in capture.csv."
    page.text("Shares", f"Of the water of each well, at the end of the last step: 1 is all of it.{more}")
    page.table("Shares", ["layer row column", "term", "from", "to"], rows)
    write_page(page, folder)
