"""The decks of a drawdown whatever the weather: base and plan at both ends of the weather, and the two difference
decks, between which the difference of the plans' heads lies. They share files: DIS and LPF are the base deck's own."""
from __future__ import annotations

from pathlib import Path

from ..common.limits import PLAIN, WIDE
from ..common.text import Problem, counted
from .plan_decks import BASE, HIGH, PLAN, Plan, Spelled, Wells, file_of, turned, write_file, write_names
from .shares import Branch, word_of
from .stretches import Stretch, dis_lines

PLAN_HIGH, LOW_DIFFERENCE, HIGH_DIFFERENCE = "plan_high", "difference_low", "difference_high"
ADDED, DRAWDOWN_LISTING = "added.wel", "drawdown.heads"


def write_lines(folder: Path, stem: str, kind: str, lines: list[str]) -> None:
    write_file(folder / file_of(stem, kind), ("\n".join(lines) + "\n").encode())


def list_lines(periods: list[list[str]]) -> list[str]:
    """A list package's lines, of its entries in each period."""
    out = [f"{max(1, *map(len, periods))} 0"]
    for n, entries in enumerate(periods):
        is_same = n > 0 and entries == periods[n - 1]
        out += ["-1 0"] if is_same else [f"{len(entries)} 0", *entries]
    return out


def well_lines(wells: Wells, is_turned: bool = False) -> list[str]:
    word = lambda entry: turned(entry.words[0]) if is_turned else entry.words[0]
    return list_lines([[f"{at(entry.cell)} {word(entry)}" for entry in entries] for entries in wells])


def at(cell: tuple[int, int, int]) -> str:
    return " ".join(map(str, cell))


def write_plan_decks(folder: Path, base: Spelled, high: Spelled, plan: Plan) -> None:
    """The decks with the plan's wells after their own, at both ends of the weather."""
    for deck, own, stem in ((base, BASE, PLAN), (high, HIGH, PLAN_HIGH)):
        if deck is base and stem == PLAN_HIGH:
            return
        wells = [[*entries, *added] for entries, added in zip(deck.entries("WEL"), plan.wells)]
        write_lines(folder, stem, "WEL", well_lines(wells))
        write_names(folder, stem, {kind: own for kind in deck.texts} | {"WEL": stem})


def write_added(folder: Path, plan: Plan) -> None:
    """The plan's wells alone, as `heads run NAME --plan` reads them."""
    write_file(folder / ADDED, ("\n".join(well_lines(plan.wells)) + "\n").encode())


def write_difference_decks(
    folder: Path, base: Spelled, plan: Plan, stretches: list[Stretch], branches: list[list[Branch]], has_wide: bool
) -> None:
    """The two difference decks, whose periods are the stretches: the plan's wells turned round, every branch to a head
    of 0, which STRT and all given heads are, too; in the one deck with the least conductances, in the other with the
    greatest."""
    held = [[each for each in period if each.high] for period in branches]
    most = max(map(len, held))
    if most > (WIDE if has_wide else PLAIN).entries:
        raise Problem(f"a difference deck has {counted(most, 'general head')} in a period: give --wide")
    zero = ["CONSTANT 0" for _ in range(base.deck.nlay)]
    ibound = [line for array in base.deck.ibound for line in array.lines()]
    kinds = {"DIS": BASE, "LPF": BASE, "BAS6": LOW_DIFFERENCE, "WEL": LOW_DIFFERENCE}
    write_lines(folder, LOW_DIFFERENCE, "BAS6", ["FREE", *ibound, "-999.99", *zero])
    wells = [plan.wells[each.period] for each in stretches]
    write_lines(folder, LOW_DIFFERENCE, "WEL", well_lines(wells, is_turned=True))
    if len(stretches) > len(base.deck.periods):
        write_lines(folder, LOW_DIFFERENCE, "DIS", dis_lines(base, stretches))
        kinds["DIS"] = LOW_DIFFERENCE
    if "CHD" in base.texts:
        entries = base.entries("CHD")
        given = [[f"{at(entry.cell)} 0 0" for entry in entries[each.period]] for each in stretches]
        write_lines(folder, LOW_DIFFERENCE, "CHD", list_lines(given))
        kinds["CHD"] = LOW_DIFFERENCE
    for stem, side in ((LOW_DIFFERENCE, "low"), (HIGH_DIFFERENCE, "high")):
        if most:
            rows = [[f"{at(each.cell)} 0 {word_of(getattr(each, side))}" for each in period] for period in held]
            write_lines(folder, stem, "GHB", list_lines(rows))
        write_names(folder, stem, kinds | ({"GHB": stem} if most else {}))

