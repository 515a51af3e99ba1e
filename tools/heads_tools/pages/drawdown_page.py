"""Pictures and the page of what one plan does against a base."""
from __future__ import annotations

from pathlib import Path

import numpy as np

from ..common.text import decimal_text, down, up
from ..planning.drawdown import Cell, Change, Drawdown, Pair, place_of
from ..program.verdict import Verdict
from . import curves, maps
from .looking import plan_for, title_of
from .map_page import NAME, write_drawdown_map
from .page import Page, write_page
from .page_facts import Facts, facts_of, facts_of_making
from .pictures import Album

MOST_MAPS = 12
ALL_BETWEEN = "Each change from an exact solution of the base to one of the plan lies between its bounds."


def fall(it: Drawdown, change: Change) -> np.ndarray:
    """The middle of base less plan on the grid, in length units: for pictures alone."""
    return it.plan.grid(-(change.low / 2 + change.high / 2) / 1e9, shape_of(it))


def shape_of(it: Drawdown) -> tuple[int, int, int]:
    return it.model.shape if it.model else it.plan.shape


def scale_of(falls: list[np.ndarray]) -> maps.Scale:
    """The common scale of some grids of changes."""
    least, most = min(float(np.nanmin(v)) for v in falls), max(float(np.nanmax(v)) for v in falls)
    return maps.change_scale(least, most, maps.FALL_MAP)


def set_verdict(page: Page, seen: list[Verdict]) -> None:
    """The line under the title: good where each listing is certified."""
    wrong = [each for each in seen if not each.is_certified]
    if not wrong:
        page.verdict, page.is_good = f"heads check: CERTIFIED, all {len(seen)} listings. {ALL_BETWEEN}", True
        return
    is_asked = any(each.status is not None for each in wrong)
    names = ", ".join(f"{each.name} ({each.last})" for each in wrong[:3]) + (", .." if len(wrong) > 3 else "")
    page.is_good = False if is_asked else None
    told = "NOT CERTIFIED" if is_asked else "Not checked"
    page.verdict = f"{told}: {names}. The changes hold only where the pairs are bounds."


def title(it: Drawdown, told: str) -> str:
    """The model's title, if it is known, and what a page compares."""
    return f"{title_of(it.model.deck.path) if it.model else 'Drawdown'}: {told}"


def facts(it: Drawdown) -> Facts:
    about = [*facts_of(it.plan, it.unit, it.model, "Plan"), *facts_of(it.base, it.unit, None, "Base")]
    return about + facts_of_making(it.verdicts)


def draw_maps(it: Drawdown, album: Album, page: Page) -> None:
    """The maps of the last step, and of that of the deepest drawdown where it is another one."""
    last, worst = it.changes[-1], it.worst
    falls = {"": fall(it, last), **({"_deepest": fall(it, worst)} if worst is not last else {})}
    if min(falls[""].shape[1:]) == 1:
        return
    plan, scale = plan_for(it.model, shape_of(it), it.unit), scale_of(list(falls.values()))
    for change, (more, values) in zip((last, worst), falls.items()):
        width = decimal_text(int((change.high - change.low).max()), 9)
        for k in [k for k in range(len(values)) if np.isfinite(values[k]).any()][:MOST_MAPS]:
            name, about = f"drawdown_layer{k + 1}{more}", f"Drawdown in layer {k + 1}, {it.at(change)}"
            words = k + 1, about, f"drawdown, {it.unit}"
            maps.layer_map(album, name, plan, values[k], *words, *scale)
            page.picture(
                "Maps",
                f"{name}.png",
                f"{about}: above 0 (red) the plan lowers the head. The middles of the bounds are drawn, which are at"
                f" most {width} {it.unit} apart; one scale for all maps, in which 0.01 to 0.02 is as long as 1 to 2",
                about if more or k else "",
            )


def draw_curves(it: Drawdown, album: Album, page: Page, cells: list[Cell]) -> None:
    """Bands over time: the greatest drawdown of all cells, that at some cells, and the budget's changes."""
    if len(it.changes) < 2:
        return
    ends = [it.time(c) for c in it.changes]
    has_times = all(t is not None for t in ends)
    x = np.array(ends if has_times else range(1, len(ends) + 1), dtype=float)
    label = f"time, {it.model.time}" if has_times and it.model else "step"
    least, most = np.array([it.greatest(c) for c in it.changes]).T / 1e9
    lines: list[curves.Curve] = [("greatest of all cells", least, most)]
    for cell in cells:
        at = it.plan.at(cell)
        low, high = (np.array([-getattr(c, side)[at] for c in it.changes]) / 1e9 for side in ("high", "low"))
        lines.append((place_of(cell)[3:], low, high))
    curves.bands(album, "drawdown_curves", x, lines, label, f"drawdown, {it.unit}", "Drawdown over time", True)
    page.picture(
        "Curves", "drawdown_curves.png", "Drawdown over time, bands between its bounds; down is a lower head"
    )
    names = [name for name in it.changes[-1].nets if any(any(c.nets.get(name, (0, 0))) for c in it.changes)]
    terms: list[curves.Curve] = [(name.lower(), rates(it, name, 0), rates(it, name, 1)) for name in names]
    if terms:
        words = label, f"more into the cells, {it.rate}", "Change of the budget over time"
        curves.bands(album, "budget_curves", np.concatenate([[0.0], x]), terms, *words, is_rate=True)
        page.picture(
            "Curves",
            "budget_curves.png",
            "Change of each term's net flow into the cells, which is the same from a step's begin to its end. Where "
            "that of river leakage is above 0, the river loses so much more, or gains so much less",
        )


def rates(it: Drawdown, name: str, side: int) -> np.ndarray:
    return np.array([c.nets.get(name, (0, 0))[side] / 10**c.places for c in it.changes])


def draw(it: Drawdown, folder: Path, cells: list[Cell], files: list[str]) -> None:
    """Writes pictures and the page of one plan against its base. `files`: the tables beside the page."""
    last = it.changes[-1]
    told = f"{it.plan.path.stem} against {it.base.path.stem}"
    page = Page(title(it, told), facts=facts(it), files=files)
    set_verdict(page, it.verdicts)
    for text in it.sentences(cells)[len(it.verdicts) :]:
        page.say(text)
    deepest = [it.deepest(it.worst), it.deepest(last)]
    deepest += [it.deepest(it.worst, it.without_wells)] if len(it.without_wells) else []
    chosen = cells or [it.cell(at) for at in dict.fromkeys(deepest)]
    rows = []
    for cell in chosen:
        at = it.plan.at(cell)
        deep = deepest_at(it, at)
        for change in [last] + ([deep] if deep is not last else []):
            rows.append([place_of(cell)[3:], it.at(change), *fall_pair(change, at)])
    page.text("Drawdown", f"In {it.unit}, at the end of the last step, and of that where it is deepest in the cell.")
    page.table("Drawdown", ["cell", "at the end of", "from", "to"], rows)
    if about := write_drawdown_map(it, folder, page):
        page.map("Maps", NAME, about)
    album = Album(folder)
    draw_maps(it, album, page)
    draw_curves(it, album, page, chosen)
    add_terms(it, page)
    if last.zones:
        flows = [
            [f"{a} to {b}", down(low, last.places), up(high, last.places)] for (a, b), (low, high) in last.zones.items()
        ]
        page.text("Zones", f"Change of the flow between zones, {it.at(last)}, in {it.rate}.")
        page.table("Zones", ["zones", "from", "to"], flows)
    write_page(page, folder)


def fall_pair(change: Change, at: int) -> tuple[str, str]:
    """The bounds of a cell's drawdown."""
    return decimal_text(-int(change.high[at]), 9), decimal_text(-int(change.low[at]), 9)


def deepest_at(it: Drawdown, at: int) -> Change:
    """The step at whose end the bounds show the deepest drawdown of a cell."""
    return min(it.changes, key=lambda change: int(change.high[at]))


def add_terms(it: Drawdown, page: Page) -> None:
    """The budget's changes in the last step, and in that where each is greatest."""
    last = it.changes[-1]
    terms = [
        [name, down(low, last.places), up(high, last.places)] for name, (low, high) in last.nets.items() if low or high
    ]
    page.text("Budget", f"Change of the net flow into the cells, {it.at(last)}, in {it.rate}.")
    page.table("Budget", ["term", "from", "to"], terms)
    if len(it.changes) < 2:
        return
    rows = []
    for name in last.nets:
        change = max(it.changes, key=lambda c: middle_size(c.nets.get(name, (0, 0)), c.places))
        low, high = change.nets.get(name, (0, 0))
        if low or high:
            rows.append([name, it.at(change), down(low, change.places), up(high, change.places)])
    page.text("Budget", f"The greatest change of each term of all steps, in {it.rate}.")
    page.table("Budget", ["term", "in", "from", "to"], rows)


def middle_size(pair: Pair, places: int) -> float:
    return abs(pair[0] + pair[1]) / 10.0**places
