"""Where a plan's water comes from: what each budget term gives more under the plan, by its sums and by balance, in
whole numbers. All terms together give what the plan's wells take."""
from __future__ import annotations

from dataclasses import dataclass, field
from fractions import Fraction

import numpy as np

from ..common.spelling import exact
from ..deck.deck import Deck
from ..listing.listing import Step
from .plan_decks import Plan, Spelled
from .shares import HEAD_PLACES, PLACES, TERMS, Branch

Pair = tuple[int, int]
FLOW_PLACES = PLACES + HEAD_PLACES


@dataclass
class Sources:
    """Of a step, in 10^-FLOW_PLACES: what the plan's wells take; what each term gives more, by the sum of its least and
    greatest flows (`sums`; none where the program lists the terms), and narrowed by what the others leave (`terms`)."""

    takes: Pair
    sums: dict[str, Pair] = field(default_factory=dict)
    terms: dict[str, Pair] = field(default_factory=dict)


def sources_of(
    step: Step, places: int, branches: list[Branch], drawdown: tuple[np.ndarray, np.ndarray], at: np.ndarray
) -> Sources:
    """The sources of a step of the difference decks' listing. `branches`: those at cells with an equation; `drawdown`:
    bounds of base less plan; `at`: the places of the cells in their arrays."""
    scale = 10 ** (FLOW_PLACES - places)
    inward = {name: (a - d, b - c) for name, (a, b, c, d) in step.terms.items()}
    wells = inward.get("WELLS", (0, 0))
    out = Sources((wells[0] * scale, wells[1] * scale))
    for name in ("STORAGE", "CONSTANT HEAD"):
        low, high = inward.get(name, (0, 0))
        out.sums[name] = -high * scale, -low * scale
    for name in TERMS.values():
        out.sums[name] = sums_of([each for each in branches if each.term == name], drawdown, at)
    out.terms = {name: narrowed(name, out.sums, out.takes) for name in out.sums}
    return out


def sums_of(branches: list[Branch], drawdown: tuple[np.ndarray, np.ndarray], at: np.ndarray) -> Pair:
    """The sum of the least flows of some branches, and that of the greatest."""
    least = most = 0
    for each in branches:
        place = at[each.cell[0] - 1, each.cell[1] - 1, each.cell[2] - 1]
        low, high = int(drawdown[0][place]), int(drawdown[1][place])
        least += (each.low if low >= 0 else each.high) * low
        most += (each.high if high >= 0 else each.low) * high
    return least, most


def narrowed(name: str, sums: dict[str, Pair], total: Pair) -> Pair:
    """The sum of that name, narrowed to what the others leave of the total of all."""
    low, high = sums[name]
    others = [sum(pair[n] for pair in sums.values()) - own for n, own in ((0, low), (1, high))]
    return max(low, total[0] - others[1]), min(high, total[1] - others[0])


def listed_sources(terms: dict[str, Pair], places: int, plan: Plan, base: Spelled, period: int) -> Sources:
    """The sources that a plan's listing gives for a step of a period, counted from 0."""
    idle = without_equation(base, period)
    taken = Fraction(0)
    for entry in plan.wells[period]:
        if not idle[tuple(n - 1 for n in entry.cell)]:
            taken -= Fraction(exact(entry.words[0]))
    units, scale = taken * 10**FLOW_PLACES, 10 ** (FLOW_PLACES - places)
    takes = units.numerator // units.denominator, -(-units.numerator // units.denominator)
    return Sources(takes, terms={name: (low * scale, high * scale) for name, (low, high) in terms.items()})


def without_equation(base: Spelled, period: int) -> np.ndarray:
    """The cells of the grid that have no equation in a period, counted from 0: without flow, or with a given head."""
    deck: Deck = base.deck
    out = np.array([array.floats() <= 0 for array in deck.ibound])
    for entries in base.entries("CHD")[: period + 1]:
        for entry in entries:
            out[entry.cell[0] - 1, entry.cell[1] - 1, entry.cell[2] - 1] = True
    return out
