"""The drawdown at a single well in steady steps where HK is known within ranges alone, cell by cell: it falls as any
conductance grows (Rayleigh's law of effective resistance). So a run with each HK at its lower end bounds it on the one
side, and one with each at its upper end on the other. At other cells two runs bound nothing. The law is proved
(crates/plan_conductances); that the decks which are written here have the steps that it speaks of isn't."""
from __future__ import annotations

from dataclasses import dataclass, replace
from pathlib import Path

from ..common.spelling import exact
from ..common.text import Problem, decimal_text, read_text
from ..deck.ranges import Range, scaled
from ..deck.writing import package_lines
from ..program.verdict import Verdict
from .difference_decks import HIGH_DIFFERENCE, LOW_DIFFERENCE
from .drawdown_weather import Asked, Cell, Weathered, listed
from .plan_decks import BASE, Plan, Spelled, file_of, ibound, write_file

LOW_HK, HIGH_HK = "hk_low", "hk_high"
FALLS = "the drawdown at a single well in a steady step falls as any conductance grows"


@dataclass
class AtWell:
    """Bounds of the drawdown at the plan's well in each step, in 10^-9, for every HK between two factors of the deck's
    own; the verdicts on the two listings."""

    cell: Cell
    factors: Range
    steps: list[tuple[int, int, int, int]]
    verdicts: list[Verdict]


def well_of(base: Spelled, plan: Plan) -> Cell:
    """The one cell with a well of the plan, in a model of steady periods alone."""
    if base.deck.is_transient:
        raise Problem(f"--hk is for steady steps, and {base.name} has a transient period: {FALLS}")
    wells = [entry for entries in plan.wells for entry in entries if exact(entry.words[0])]
    cells = sorted({entry.cell for entry in wells if ibound(base.deck, entry.cell) > 0})
    if len(cells) != 1:
        raise Problem(f"--hk is for one well, and {plan.name} has wells at {len(cells)} cells: {FALLS}")
    return cells[0]


def demand_hk(asked: Asked, factors: Range) -> None:
    if not asked.is_any:
        raise Problem("--hk goes with --any: two listings bound the heads for one HK alone")
    if min(exact(factors.first), exact(factors.second)) <= 0:
        raise Problem("the factors of --hk are above 0")


def at_the_well(it: Weathered, factors: Range, folder: Path) -> AtWell:
    """Runs and checks the difference decks with each HK at its lower end, and at its upper one."""
    cell = well_of(it.base, it.plan)
    ends = sorted((factors.first, factors.second), key=exact)
    listings, verdicts = [], []
    for stem, factor in zip((LOW_HK, HIGH_HK), ends):
        write_decks(it.base, folder, stem, factor)
        listing, verdict = listed(folder, f"{stem}_1", f"{stem}_2", "difference_" + stem, it.asked)
        listings.append(listing)
        verdicts.append(verdict)
    at, steps = it.listing.at(cell), []
    for one, two in zip(*(listing.steps for listing in listings)):
        low, high = min(int(one.low[at]), int(two.low[at])), max(int(one.high[at]), int(two.high[at]))
        steps.append((one.period, one.step, low, high))
    return AtWell(cell, Range(*ends), steps, verdicts)


def write_decks(base: Spelled, folder: Path, stem: str, factor: str) -> None:
    """The two difference decks with each HK times a factor."""
    properties = [layer | {"HK": scaled(layer["HK"], factor)} for layer in base.deck.properties]
    lines = package_lines(replace(base.deck, properties=properties), "LPF")
    write_file(folder / file_of(stem, "LPF"), ("\n".join(lines) + "\n").encode())
    for n, deck in enumerate((LOW_DIFFERENCE, HIGH_DIFFERENCE), 1):
        names = read_text(folder / f"{deck}.nam").replace(file_of(BASE, "LPF"), file_of(stem, "LPF"))
        write_file(folder / f"{stem}_{n}.nam", names.encode())


def well_lines(found: AtWell) -> list[str]:
    """What is said of it, and the bounds of each step."""
    factors = f"{found.factors.first} and {found.factors.second}"
    verdicts = ", ".join(f"{seen.name}: {seen.last}" for seen in found.verdicts)
    name = "layer {} row {} column {}".format(*found.cell)
    said = (
        f"At the plan's well alone ({name}), where HK is anywhere between {factors} times the deck's, cell by cell, and"
        f" in any weather ({verdicts}). Proved by machine (crates/plan_conductances): {FALLS}. Not proved: that these"
        " decks have such steps. At other cells these runs bound nothing"
    )
    place = " ".join(map(str, found.cell))
    return [f"{said}:"] + [
        f"DRAWDOWN {place} {decimal_text(low, 9)} {decimal_text(high, 9)} at the end of period {period} step {step}"
        for period, step, low, high in found.steps
    ]
