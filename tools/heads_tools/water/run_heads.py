"""The heads of a run of a model with convertible layers: which cells are dry, whether the heads are gentle, and how far
they are from a certified pair."""
from __future__ import annotations

from pathlib import Path

import numpy as np

from ..common.spelling import exact, quoted_words
from ..common.text import Problem, counted, short_down, short_up
from ..listing.compare import compare
from ..listing.headfile import ANY_STEP, Heads as Given
from ..listing.listing import Listing
from ..numbers.whole import MOST_HEAD
from .convertible import Convertible, Heads
from .gentle import DRIED, NotGentle, first_not_gentle
from .water_steps import Found, StepData

ONE = 10**9
GREAT = 4e9


def dry_mark(water: Convertible) -> float:
    """HDRY: the head that MODFLOW writes for cells that it dried."""
    return float(exact(quoted_words(water.deck.options["LPF"])[1]))


class RunHeads:
    """Heads by period and step, as they stand in the run's file."""

    def __init__(self, path: Path, heads: Given, water: Convertible):
        self.path, self.water = path, water
        mark = dry_mark(water)
        near = abs(mark) * 1e-6
        self.heads = {key: grid.ravel() for key, grid in heads.items()}
        self.dry = {
            key: water.active & (water.model.ibound.ravel() > 0) & (np.abs(grid - mark) <= near)
            for key, grid in self.heads.items()
        }

    def key(self, data: StepData) -> tuple[int, int] | None:
        """The heads that are given for a step; those without a step begin the first one alone."""
        if (data.period, data.number) in self.heads:
            return data.period, data.number
        return ANY_STEP if ANY_STEP in self.heads and (data.period, data.number) == (1, 1) else None

    def start(self, data: StepData, before: np.ndarray) -> np.ndarray:
        """Heads to begin a step with."""
        key = self.key(data)
        if key is None:
            return before
        heads = self.heads[key]
        is_head = np.isfinite(heads) & (np.abs(heads) < GREAT) & ~self.dry[key] & self.water.active
        return np.where(is_head, heads, before)

    def pair(self, key: tuple[int, int], data: StepData) -> tuple[Heads, Heads]:
        """The given heads in 10^-9, rounded down and up, with the constant heads of the step."""
        heads = np.clip(np.nan_to_num(self.heads[key]), -GREAT, GREAT) * ONE
        units = (np.clip(np.floor(heads), -MOST_HEAD, MOST_HEAD), np.clip(np.ceil(heads), -MOST_HEAD, MOST_HEAD))
        low, high = (np.where(data.is_constant, c, u.astype(np.int64)) for c, u in zip(data.constant, units))
        return low, high

    def lacks(self, key: tuple[int, int], data: StepData) -> np.ndarray:
        """The variable cells for which the file has no head."""
        return np.flatnonzero(data.is_variable & ~np.isfinite(self.heads[key]))

    def fault(self, data: StepData) -> NotGentle | None:
        """Where the run's heads of a step aren't gentle, if a head is given for each cell."""
        key = self.key(data)
        if key is None or self.lacks(key, data).size:
            return None
        if self.dry[key].any():
            cell = int(np.flatnonzero(self.dry[key])[0])
            name = self.water.name(cell)
            text = (
                f"at layer row column {name} the run has HDRY: it dried {counted(int(self.dry[key].sum()), 'cell')},"
                " and `heads-tools plain --dry` writes the deck without such cells"
            )
            return NotGentle(cell, DRIED, text)
        low, high = self.pair(key, data)
        return first_not_gentle(self.water, low, high, data.is_variable)

    def about(self, data: StepData, fault: NotGentle, others: Found | None, off: float) -> list[str]:
        """What there is to say of a run whose heads aren't gentle: whether there are others that are, and how far from
        the run's they are."""
        key = self.key(data)
        if key is None or fault.reason == DRIED:
            return []
        water = self.water
        flow = f"{water.model.length}3/{water.model.time}"
        near = f"By doubles no cell's balance at them is over {short_up(off)} {flow}."
        if others is None:
            return [near, "No gentle heads were found that can be certified."]
        given = np.where(water.active, self.heads[key], np.nan)
        least = np.maximum(others.low / ONE - given, given - others.high / ONE)
        cell = int(np.nanargmax(least))
        return [
            near,
            "LPF's equations have other heads here, which are gentle: they would be certified, and differ from these by"
            f" {short_down(max(0.0, float(least[cell])))} {water.model.length} or more at layer row column"
            f" {water.name(cell)}, where they lie between {others.low[cell] / ONE:.6f} and"
            f" {others.high[cell] / ONE:.6f}. If the run's heads solve the equations, the model has two solutions that"
            " differ, and the run is at the one of which nothing is said.",
        ]

    def differences(self, listing: Listing) -> list[str]:
        """How far the run's heads are outside the certified pairs."""
        shape = self.water.shape
        heads = {key: np.where(self.dry[key], np.nan, grid).reshape(shape) for key, grid in self.heads.items()}
        try:
            found = compare(listing, heads)
        except Problem as error:
            return [f"{self.path.name}: {error}"]
        least = max(float(np.nanmax(d.least)) for d in found)
        most = max(float(np.nanmax(d.most)) for d in found)
        unit = self.water.model.length
        return [
            f"{self.path.name}: in {counted(len(found), 'step')} off from all gentle solutions by at least"
            f" {short_down(least)} {unit} somewhere, and by at most {short_up(most)} {unit} where heads are given"
        ]
