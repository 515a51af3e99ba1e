"""The water budget of each zone, from the pairs of heads of a listing, in whole numbers and rounded outward: wells,
rivers, recharge, storage and the other terms, and what flows through the faces to each other zone.

Between two heads a flow into a cell lies between its value at the upper and that at the lower one, since it falls as
the cell's head rises. So where each exact solution lies between the listed heads, its flows lie between the sums here.
A constant head's flow counts in the zone of its own cell, as in ZONEBUDGET; zone 0 has no budget, and its faces count
as those of any other zone."""
from __future__ import annotations

from dataclasses import dataclass, field
from typing import Iterator, Optional, Tuple

import numpy as np

from ..deck.model import Model
from ..listing.listing import Listing
from .equations import TERMS, Given, given_heads
from .whole import Pair, WholeModel, product
from .whole_step import WholeStep

CONSTANT = "CONSTANT HEAD"
# The term, the cells that flows go into, the cells on the other side (of faces alone), least and most.
Flow = Tuple[str, np.ndarray, Optional[np.ndarray], np.ndarray, np.ndarray]


@dataclass
class Row:
    """A term of a zone's budget, in 10^-(digits + 9): least and most in, least and most out, least and most net."""

    term: str
    sums: list[int] = field(default_factory=lambda: [0] * 6)

    def add(self, least: np.ndarray, most: np.ndarray) -> None:
        """Adds flows into the zone, each between two numbers."""
        if not len(least):
            return
        for at, values in enumerate((least, most, -most, -least)):
            self.sums[at] += int(np.maximum(values, 0).sum())
        self.sums[4] += int(least.sum())
        self.sums[5] += int(most.sum())


@dataclass
class ZoneBudget:
    """The budget of a zone at a step: its terms, and the faces to other zones by their numbers."""

    period: int
    step: int
    zone: int
    rows: list[Row]

    @property
    def total(self) -> Row:
        """All that comes in and goes out; its net is 0 in each exact solution."""
        out = Row("TOTAL", [sum(row.sums[n] for row in self.rows) for n in range(6)])
        return out

    def narrowed(self, row: Row) -> tuple[int, int]:
        """A term's net, narrowed to what the other terms leave: in an exact solution all nets sum to 0."""
        total = self.total.sums
        low, high = row.sums[4:]
        return max(low, -(total[5] - high)), min(high, -(total[4] - low))


def zone_budgets(model: Model, listing: Listing, zones: np.ndarray) -> Iterator[ZoneBudget]:
    """The budgets of all steps. `zones`: the zone of each cell, shape (layers, rows, cols)."""
    network = WholeModel(model, listing.digits)
    numbers = zones.ravel()
    names = [zone for zone in np.unique(numbers[network.active]).tolist() if zone]
    given: Given = {}
    old = network.start
    for listed in listing.steps:
        if listed.step == 1:
            given = given_heads(model, listed.period - 1, given)
        step = WholeStep(network, listed.period, listed.step, given)
        now = on_grid(model, listing, listed.low), on_grid(model, listing, listed.high)
        held = tuple(np.where(step.is_constant, step.constant[side], now[side]) for side in (0, 1))
        flows = list(all_flows(step, (held[0], held[1]), old))
        for zone in names:
            yield ZoneBudget(listed.period, listed.step, zone, rows_of(model, numbers, zone, flows))
        old = now


def rows_of(model: Model, numbers: np.ndarray, zone: int, flows: list[Flow]) -> list[Row]:
    """The terms of a zone, and its faces by the numbers of the other zones."""
    rows = {name: Row(name) for name in TERMS}
    faces: dict[int, Row] = {}
    for term, into, other, least, most in flows:
        here = numbers[into] == zone
        if other is None:
            rows[term].add(least[here], most[here])
            continue
        beside = numbers[other]
        for number in np.unique(beside[here & (beside != zone)]).tolist():
            face = here & (beside == number)
            faces.setdefault(number, Row(f"ZONE {number}")).add(least[face], most[face])
    named = list(TERMS)[: 8 if "EVT" in model.deck.areal else 7]
    return [*(rows[name] for name in named), *(faces[number] for number in sorted(faces))]


def on_grid(model: Model, listing: Listing, units: np.ndarray) -> np.ndarray:
    """Heads of a listing by cell number, 0 where there is no flow."""
    out = np.zeros(model.shape, np.int64)
    out[tuple((listing.cells - 1).T)] = units
    return out.ravel()


def all_flows(step: WholeStep, held: Pair, old: Pair) -> Iterator[Flow]:
    """All flows of a step. A face stands twice, once for each of its cells."""
    pairs = zip(step.flows(held[1], old[0], 0), step.flows(held[0], old[1], 1))
    for (term, at, least), (_, _, most) in pairs:
        if term != CONSTANT:
            yield term, at, None, least, most
    for a, holder, pair in step.holders():
        least = product(pair, step.constant[0][holder] - held[1][a], 0)
        most = product(pair, step.constant[1][holder] - held[0][a], 1)
        yield CONSTANT, holder, None, least, most
        yield "", a, holder, least, most
        yield "", holder, a, -most, -least
    for a, b, pair in step.links():
        least, most = product(pair, held[0][b] - held[1][a], 0), product(pair, held[1][b] - held[0][a], 1)
        yield "", a, b, least, most
        yield "", b, a, -most, -least
