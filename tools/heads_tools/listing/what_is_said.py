"""What may be said after a certified listing, and what may not, of one deck and of all decks between two."""
from __future__ import annotations

from dataclasses import dataclass, field

import numpy as np

from ..common.text import decimal_text, down, up
from .listing import Cell, Listing

EACH_HEAD = (
    "Each exact solution of this model's finite-difference equations has, at the end of each listed time step "
    "and at each listed cell, a head between the two listed numbers, "
    "and budget flows between the two listed numbers of each term."
)
ONE_HEAD = (
    "For example: each exact solution of this model's equations has, in layer {}, row {}, column {}, "
    "at the end of period {}, step {}, a head between {} and {} {}."
)
ZONE_FLOWS = "Each flow between two zones lies between its two listed numbers, too."
NOT_THE_GROUND = "The head in the aquifer lies between these numbers."
NOT_THE_MOST = "No plan draws the aquifer down by more than this model's bounds say."
WHY_NOT = (
    "The listing speaks of the equations of these files. "
    "It says nothing of the ground, nor of the heads that MODFLOW prints."
)
PROVED = "each exact solution of the manual's equations of these files lies between its numbers"
TESTS = (
    "Two tests of the listing that search for nothing and only test what is listed: one by the program, one by the "
    "short script recheck.py, which shares no code with it."
)
EACH_BETWEEN = (
    "Choose at each time step any numbers of the stresses between those of the two decks: each exact solution of these "
    "finite-difference equations has, at the end of each listed time step and at each listed cell, a head between the "
    "two listed numbers, and budget flows between the two listed numbers of each term."
)
HOLDS = "This holds for every {} between those of the two decks, also where they change from step to step."
STAYS = (
    "In layer {}, row {}, column {} the head stays above {} {unit} and below {} {unit} at the end of each time step, "
    "{whatever}."
)
PUMPED = "whatever is pumped between the rates of the two decks (within the permits, where those are 0 and the permits)"
NOT_THE_UNCERTAINTY = "These numbers are the uncertainty of the model, or its likely range."
WHY_NOT_BETWEEN = (
    "Only the stresses vary: the conductivities, the storage, the grid and the equations are the same in both decks. "
    "And no number between is said to be more likely than another."
)
PROVED_BETWEEN = (
    "each exact solution of the manual's equations lies between its numbers, whatever the stresses are between those "
    "of the two decks, at each time step anew"
)


@dataclass(frozen=True)
class Words:
    """Sentences for an exhibit: what may be said where the listing is certified, what may not and why, what is proved
    of the program, and which tests there are."""

    may: list[str] = field(default_factory=list)
    may_not: list[str] = field(default_factory=lambda: [NOT_THE_GROUND])
    why_not: str = WHY_NOT
    proved: str = PROVED
    tests: str = TESTS


def words_of(listing: Listing, unit: str, differing: list[str], wells: list[Cell]) -> Words:
    """The sentences of a listing, whose lengths have this unit. `differing`: what differs between its two decks."""
    zones = [ZONE_FLOWS] if any(step.zones for step in listing.steps) else []
    if not listing.is_span:
        return Words([EACH_HEAD, one_head(listing, unit), *zones])
    may = [stays(listing, unit, differing, wells), HOLDS.format(named(differing)), EACH_BETWEEN, *zones]
    may_not, why_not = [NOT_THE_UNCERTAINTY, NOT_THE_GROUND], f"{WHY_NOT_BETWEEN} {WHY_NOT}"
    return Words(may, may_not, why_not, PROVED_BETWEEN)


def one_head(listing: Listing, unit: str) -> str:
    """The sentence of the cell of an unknown head that lies farthest from the mean in the last step."""
    step = listing.steps[-1]
    at = farthest(listing)
    pair = [decimal_text(int(v[at]), 9) for v in (step.low, step.high)]
    return ONE_HEAD.format(*listing.cells[at].tolist(), step.period, step.step, *pair, unit)


def stays(listing: Listing, unit: str, differing: list[str], wells: list[Cell]) -> str:
    """The sentence of the cell, one with a well where there is one, whose bounds in the last step lie farthest apart:
    its least and its greatest bound of all steps, rounded outward to thousandths."""
    width = listing.steps[-1].width()
    places = [listing.at(cell) for cell in wells if listing.has(cell)] or range(len(width))
    at = max(places, key=lambda n: int(width[n]))
    least, most = min(int(s.low[at]) for s in listing.steps), max(int(s.high[at]) for s in listing.steps)
    whatever = PUMPED if "pumping" in differing else "whatever lies between the two decks"
    numbers = *listing.cells[at].tolist(), strictly_below(least), strictly_above(most)
    return STAYS.format(*numbers, unit=unit, whatever=whatever)


def strictly_below(units: int) -> str:
    """A number of three places that lies below a bound."""
    return down(units - 1, 9, 3)


def strictly_above(units: int) -> str:
    return up(units + 1, 9, 3)


def farthest(listing: Listing) -> int:
    step = listing.steps[-1]
    low = step.low.astype(float)
    return int((np.abs(low - low.mean()) * (step.width() > 0)).argmax())


def named(names: list[str]) -> str:
    """pumping, every recharge and every state of the rivers."""
    *most, last = names or ["stress"]
    return f"{', every '.join(most)} and every {last}" if most else last
