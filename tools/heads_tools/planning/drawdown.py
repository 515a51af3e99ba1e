"""Differences of two listings with bounds: what a plan does to heads, budget terms and flows between zones. If one
run's value lies from l1 to u1 and the other's from l2 to u2, their difference lies from l1 - u2 to u1 - l2: whole
numbers, outward, with nothing rounded."""
from __future__ import annotations

from dataclasses import dataclass, field
from functools import cached_property
from pathlib import Path

import numpy as np

from ..common.text import Problem, counted, decimal_text, down, up, with_unit
from ..common.whole_files import whole_file
from ..deck.model import Model
from ..listing.below_top import THINNER, BelowTop
from ..listing.cell_lines import write_cells
from ..listing.listing import Cell, Listing, Step
from ..listing.spans import demand_one
from ..listing.tables import budget_of
from ..program.verdict import UNCHECKED_ZONES, Verdict, check_listing, not_checked

Pair = tuple[int, int]
SHOWN = 3


@dataclass
class Change:
    """One step of the first listing less that of the second. `low`, `high`: heads in 10^-9 length units, shape
    (cells,); `nets`: budget terms, into the cells, and `zones`: flows by (from, to), both in 10^-places."""

    period: int
    step: int
    low: np.ndarray
    high: np.ndarray
    places: int = 0
    nets: dict[str, Pair] = field(default_factory=dict)
    zones: dict[tuple[int, int], Pair] = field(default_factory=dict)


def minus(a: Pair, b: Pair) -> Pair:
    return a[0] - b[1], a[1] - b[0]


def difference(listing: Listing, base: Listing) -> list[Change]:
    """listing less base, for each period and step that both have."""
    for each in (listing, base):
        demand_one(each, "a difference would count what lies between its decks twice. Take listings of one deck each")
    if not np.array_equal(listing.cells, base.cells):
        raise Problem(f"{base.path} has other cells with flow than {listing.path}: their heads can't be subtracted")
    others = {(s.period, s.step): s for s in base.steps}
    pairs = [(s, others[s.period, s.step]) for s in listing.steps if (s.period, s.step) in others]
    if not pairs:
        raise Problem(f"{base.path} has none of the periods and steps of {listing.path}")
    places = max(listing.flow_places, base.flow_places)
    scales = 10 ** (places - listing.flow_places), 10 ** (places - base.flow_places)
    return [
        Change(
            s.period,
            s.step,
            s.low - t.high,
            s.high - t.low,
            places,
            terms_less(nets(s, scales[0]), nets(t, scales[1])),
            terms_less(zone_flows(s, scales[0]), zone_flows(t, scales[1])),
        )
        for s, t in pairs
    ]


def changes_of(listing: Listing, base: Listing) -> Listing:
    """The changes of heads, listing less base, as a listing, for exports."""
    steps = [Step(c.period, c.step, c.low, c.high) for c in difference(listing, base)]
    end = listing.end if listing.end != "END" else base.end
    digest = f"{listing.sha256} less {base.sha256}"
    return Listing(listing.path, listing.digits, listing.unit, steps, listing.cells, end, True, sha256=digest)


def nets(step: Step, scale: int) -> dict[str, Pair]:
    """The net terms, narrowed to what the other terms leave."""
    return {name: (low * scale, high * scale) for name, _, _, low, high in budget_of(step).nets}


def zone_flows(step: Step, scale: int) -> dict[tuple[int, int], Pair]:
    return {(a, b): (low * scale, high * scale) for a, b, low, high in step.zones}


def terms_less(a: dict, b: dict) -> dict:
    """Terms that one run lacks (a package that it doesn't have) are 0 there; flows between zones have to stand in
    both."""
    names = (
        [n for n in a if n in b] if a and isinstance(next(iter(a)), tuple) else list(a) + [n for n in b if n not in a]
    )
    return {name: minus(a.get(name, (0, 0)), b.get(name, (0, 0))) for name in names}


def told(low: int, high: int, unit: str, plan: str = "the plan", where: str = "here") -> str:
    """What a change of the head from low to high (10^-9, plan less base) is, in a sentence, rounded outward to
    thousandths."""
    if high <= 0:
        return f"{plan} lowers the head {where} by {down(-high, 9, SHOWN)} to {up(-low, 9, SHOWN)} {unit}"
    if low >= 0:
        return f"{plan} raises the head {where} by {down(low, 9, SHOWN)} to {up(high, 9, SHOWN)} {unit}"
    return (
        f"{plan} changes the head {where} by {down(low, 9, SHOWN)} to {up(high, 9, SHOWN)} {unit}: the bounds don't"
        " show which way"
    )


def told_term(name: str, pair: Pair, places: int, unit: str) -> str:
    """The same of a net term, into the cells."""
    low, high = pair
    if low >= 0:
        return f"{name}: {down(low, places, SHOWN)} to {up(high, places, SHOWN)} {unit} more into the cells"
    if high <= 0:
        return f"{name}: {down(-high, places, SHOWN)} to {up(-low, places, SHOWN)} {unit} less into the cells"
    return f"{name}: from {up(-low, places, SHOWN)} {unit} less to {up(high, places, SHOWN)} more into the cells"


def place_of(cell: Cell) -> str:
    return "at layer {} row {} column {}".format(*cell)


@dataclass
class Drawdown:
    """The changes from base to plan, with what is needed to say them: units, times and the plan's grid, where its
    model is named. `verdicts`: what was checked of the two listings; `tops`: what their heads say of the tops of their
    cells."""

    plan: Listing
    base: Listing
    changes: list[Change]
    unit: str
    model: Model | None = None
    verdicts: list[Verdict] = field(default_factory=list)
    tops: list[str] = field(default_factory=list)

    @property
    def rate(self) -> str:
        return f"{self.unit}³ per {self.model.time if self.model else 'time unit'}"

    def at(self, change: Change) -> str:
        time = self.time(change)
        end = f", {with_unit(time, self.model.time)}" if self.model and time is not None else ""
        return f"period {change.period} step {change.step}{end}"

    def time(self, change: Change) -> float | None:
        times = self.model.times if self.model else {}
        return times.get((change.period, change.step), (0.0, None))[1]

    def deepest(self, change: Change, among: np.ndarray | None = None) -> int:
        """The place of the cell whose head the plan lowers most, by the least that the bounds show; else changes
        most. `among`: the places of the cells to choose from, all where left out."""
        places = np.arange(len(change.low)) if among is None else among
        low, high = change.low[places], change.high[places]
        return int(places[high.argmin() if (high < 0).any() else np.maximum(-low, high).argmax()])

    def cell(self, at: int) -> Cell:
        """Layer, row and column of a place."""
        layer, row, col = self.plan.cells[at].tolist()
        return layer, row, col

    @cached_property
    def without_wells(self) -> np.ndarray:
        """The places of the cells without an entry of the plan's WEL; none where its model isn't named, or has no
        entry."""
        lists = self.model.deck.lists.get("WEL", []) if self.model else []
        wells = {entry.cell for entries in lists for entry in entries or []}
        return np.flatnonzero([tuple(cell) not in wells for cell in self.plan.cells.tolist()] if wells else [])

    @cached_property
    def worst(self) -> Change:
        """The step at whose end the bounds show the deepest drawdown; where they show none, the last."""
        least = [int(change.high.min()) for change in self.changes]
        return self.changes[least.index(min(least))] if min(least) < 0 else self.changes[-1]

    def greatest(self, change: Change) -> Pair:
        """Bounds of the greatest drawdown of all cells at the end of a step, in 10^-9: that of the cell where it is
        deepest is one of them."""
        return int((-change.high).max()), int((-change.low).max())

    def sentences(self, cells: list[Cell]) -> list[str]:
        """What the plan does at the end of the last step that both runs have, and at that of its deepest drawdown."""
        last, worst = self.changes[-1], self.worst
        out = [said_of(seen) for seen in self.verdicts]
        out.append(f"At the end of {self.at(last)}, {self.most(last)}, the most of all cells.")
        if worst is not last:
            deepest = f"at the end of {self.at(worst)}, {self.most(worst)}"
            out.append(f"The deepest of all {len(self.changes)} steps: {deepest}.")
        if len(self.without_wells):
            most = self.most(worst, self.without_wells)
            out.append(f"Of the cells without a well the most, at the end of {self.at(worst)}: {most}.")
        out += [
            told(int(last.low[n]), int(last.high[n]), self.unit, where=place_of(cell)).replace(
                "the plan", "The plan", 1
            )
            + "."
            for cell in cells
            for n in [self.plan.at(cell)]
        ]
        shown = int(((last.low > 0) | (last.high < 0)).sum())
        out.append(f"At {counted(shown, 'cell')} of {len(last.low)} the bounds show which of the two heads is higher.")
        return out + self.tops

    def most(self, change: Change, among: np.ndarray | None = None) -> str:
        """What the plan does at the end of a step to the cell, of all or of some, whose head it changes most."""
        at = self.deepest(change, among)
        return told(int(change.low[at]), int(change.high[at]), self.unit, where=place_of(self.cell(at)))

    def term_sentences(self) -> list[str]:
        last = self.changes[-1]
        out = [told_term(name, pair, last.places, self.rate) for name, pair in last.nets.items() if any(pair)]
        return out + [
            told_term(f"zone {a} to zone {b}", pair, last.places, self.rate).replace("into the cells", "that way")
            for (a, b), pair in last.zones.items()
        ]


def write_changes(it: Drawdown, folder: Path) -> list[str]:
    """drawdown.csv (base less plan: above 0 where the plan lowers the head), budget_change.csv and zones_change.csv
    (plan less base), all bounds with all their digits: their names."""
    with whole_file(folder / "drawdown.csv") as file:
        file.write("period,step,time,layer,row,col,drawdown_lower,drawdown_upper\n")
        for change in it.changes:
            time = it.time(change)
            head = f"{change.period},{change.step},{'' if time is None else format(time, '.12g')}"
            write_cells(file, f"{head},", ",", it.plan.cells, -change.high, -change.low)
    with whole_file(folder / "budget_change.csv") as file:
        file.write("period,step,term,net_lower,net_upper\n")
        for change in it.changes:
            for name, (low, high) in change.nets.items():
                file.write(
                    f"{change.period},{change.step},{name},"
                    f"{decimal_text(low, change.places)},{decimal_text(high, change.places)}\n"
                )
    if not any(change.zones for change in it.changes):
        return ["drawdown.csv", "budget_change.csv"]
    with whole_file(folder / "zones_change.csv") as file:
        file.write("period,step,from,to,lower,upper\n")
        for change in it.changes:
            for (a, b), (low, high) in change.zones.items():
                file.write(
                    f"{change.period},{change.step},{a},{b},"
                    f"{decimal_text(low, change.places)},{decimal_text(high, change.places)}\n"
                )
    return ["drawdown.csv", "budget_change.csv", "zones_change.csv"]


def verdict_of(
    listing: Listing, nam: Path | None, zones: Path | None = None, has_wide: bool = False
) -> Verdict:
    return check_listing(nam, listing, zones, has_wide=has_wide) if nam else not_checked(listing)


def said_of(seen: Verdict) -> str:
    """A sentence on a listing."""
    if seen.is_certified:
        rest = f" {UNCHECKED_ZONES}" if seen.has_zones and not seen.is_zoned else ""
        return f"{seen.name}: heads check says CERTIFIED.{rest}"
    why = "it wasn't checked" if seen.status is None else f"heads check says {seen.last}"
    return f"{seen.name}: {why}; the differences hold only if its pairs are bounds."


def tops_lines(named: list[tuple[Verdict, BelowTop]]) -> list[str]:
    """What the heads of some listings say of the tops of their cells, each sentence with the listing's name, and once
    what it means."""
    lines = [f"{seen.name}: {line}" for seen, tops in named for line in tops.lines(seen.holds)]
    return [*lines, THINNER] if any(tops.count for _, tops in named) else lines
