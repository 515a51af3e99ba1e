"""Pictures and the page of all plans of a batch beside each other."""
from __future__ import annotations

from dataclasses import dataclass
from pathlib import Path

import numpy as np

from ..common.text import counted, down, up
from ..listing.below_top import THINNER, BelowTop
from ..planning.drawdown import Cell, Drawdown, tops_lines
from . import maps
from .drawdown_page import fall, fall_pair, scale_of, set_verdict, shape_of, title
from .looking import plan_for
from .page import Page, write_page
from .page_facts import facts_of, facts_of_making
from .pictures import Album

MOST_PANELS = 24
RIVER = "RIVER LEAKAGE"


@dataclass
class Change:
    """What a plan changes against the base, and which of its heads lie below the tops of their cells."""

    it: Drawdown
    tops: BelowTop


@dataclass
class Plan:
    """One plan of a batch: its name, how it ended, and its changes against the base, where it has a listing."""

    name: str
    ended: str
    change: Change | None = None


Named = list[tuple[str, Change]]


def drawn(plans: list[Plan]) -> Named:
    """The plans that have changes to show."""
    return [(plan.name, plan.change) for plan in plans if plan.change is not None]


def draw_plans(plans: list[Plan], base: Plan, folder: Path, cells: list[Cell]) -> None:
    """One page for all plans of a batch against their base: a table, maps in one scale, and the terms of each. `base`:
    the base against itself."""
    assert base.change is not None
    changes, ground = drawn(plans), base.change.it
    page = Page(title(ground, f"{counted(len(plans), 'plan')} against {base.name}"), files=["plans.csv"])
    seen = [ground.verdicts[0], *(change.it.verdicts[0] for _, change in changes)]
    page.facts = [*facts_of(ground.plan, ground.unit, ground.model, "Base"), *facts_of_making(seen)]
    set_verdict(page, seen)
    say_tops(page, base.change, changes)
    head, rows = table_of(plans, cells)
    river = f", the river's water in {ground.rate}" if any("river" in name for name in head) else ""
    page.text("Plans", f"Drawdown in {ground.unit}{river}; a click on the head of a column sorts the table.")
    page.table("Plans", head, rows, is_sorted=True)
    draw_small_maps(changes, Album(folder), page)
    terms = [
        [name, term, down(low, last.places), up(high, last.places)]
        for name, change in changes
        for last in change.it.changes[-1:]
        for term, (low, high) in last.nets.items()
        if low or high
    ]
    page.text("Budget", f"Change of the net flow into the cells at the end of the last step, in {ground.rate}.")
    page.table("Budget", ["plan", "term", "from", "to"], terms, is_sorted=True)
    write_page(page, folder)


def say_tops(page: Page, base: Change, changes: Named) -> None:
    """Whether heads of the base and of the plans lie below the tops of their cells."""
    lines = tops_lines([(base.it.verdicts[0], base.tops)])
    below = [name for name, change in changes if change.tops.count]
    if below:
        names = ", ".join(below[:5]) + (", .." if len(below) > 5 else "")
        count = f"{len(below)} of {counted(len(changes), 'plan')}"
        page.say(f"In {count} heads lie below the tops of their cells: {names}.")
    for text in [*lines, THINNER] if below and THINNER not in lines else lines:
        page.say(text)


def table_of(plans: list[Plan], cells: list[Cell]) -> tuple[list[str], list[list[str]]]:
    """A row for each plan: where and when it lowers the head most, by how much, what it does at some cells and to the
    river at the end of the last step; of a plan without a listing, why."""
    has_river = any(RIVER in change.it.changes[-1].nets for _, change in drawn(plans))
    head = ["plan", "greatest drawdown, from", "to", "layer row column", "at the end of"]
    head += [f"{' '.join(map(str, cell))}, {side}" for cell in cells for side in ("from", "to")]
    head += ["river into the cells, from", "to"] * has_river + ["cells below their tops", "heads check"]
    rows = []
    for plan in plans:
        if plan.change is None:
            rows.append([plan.name, *[""] * (len(head) - 2), plan.ended])
            continue
        it = plan.change.it
        last, worst = it.changes[-1], it.worst
        at = it.deepest(worst)
        row = [plan.name, *fall_pair(worst, at), " ".join(map(str, it.cell(at))), it.at(worst)]
        row += [text for cell in cells for text in fall_pair(last, it.plan.at(cell))]
        if has_river:
            low, high = last.nets.get(RIVER, (0, 0))
            row += [down(low, last.places), up(high, last.places)]
        rows.append([*row, str(plan.change.tops.count), it.verdicts[0].last])
    return head, rows


def draw_small_maps(changes: Named, album: Album, page: Page) -> None:
    """The topmost layer with flow of each plan, all in one scale."""
    falls = [fall(change.it, change.it.changes[-1]) for _, change in changes]
    if not falls or min(falls[0].shape[1:]) == 1:
        return
    one = changes[0][1].it
    plan, label, scale = plan_for(one.model, shape_of(one), one.unit), f"drawdown, {one.unit}", scale_of(falls)
    for first in range(0, len(changes), MOST_PANELS):
        panels = []
        for (name, _), values in list(zip(changes, falls))[first : first + MOST_PANELS]:
            k = next(k for k in range(len(values)) if np.isfinite(values[k]).any())
            panels.append((name, values[k]))
        file = f"plans{first // MOST_PANELS + 1}"
        maps.small_maps(album, file, plan, panels, label, *scale)
        page.picture(
            "Maps",
            f"{file}.png",
            "Drawdown of each plan in its topmost layer with flow, at the end of the last step, in one scale: above 0"
            " (red) the plan lowers the head",
            f"Maps of plans {first + 1} to {first + len(panels)}" if first else "",
        )
