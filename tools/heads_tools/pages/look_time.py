"""The hydrographs of a listing's page."""
from __future__ import annotations

from functools import partial

import numpy as np

from . import curves
from ..listing.listing import Cell
from .looking import HYDROGRAPHS, Looking
from ..common.text import decimal_text

MOST_CURVES, LEAST_CURVES = 5, 3


class OverTime(Looking):
    """Cells over time."""

    def curve_cells(self) -> list[Cell]:
        """Three to five cells: wells first, then those that move most and lie apart from each other."""
        lows = np.array([s.low for s in self.listing.steps])
        is_open = np.array([s.width() for s in self.listing.steps]).max(axis=0) > 0
        moves = (lows.max(axis=0) - lows.min(axis=0)) * (is_open | ~is_open.any())
        wells = [cell for cell, _ in self.elements.get("WEL", []) if self.listing.has(cell)]
        chosen = list(dict.fromkeys(sorted(wells, key=lambda c: -moves[self.listing.at(c)])))[:LEAST_CURVES]
        apart = max(self.shape[1:]) / 5
        for at in np.argsort(-moves, kind="stable").tolist():
            k, i, j = self.listing.cells[at].tolist()
            cell = k, i, j
            if len(chosen) >= min(MOST_CURVES, max(LEAST_CURVES, len(wells) + 2)) or not moves[at]:
                break
            if all(max(abs(cell[1] - c[1]), abs(cell[2] - c[2])) >= apart for c in chosen):
                chosen.append(cell)
        return chosen or [self.place]

    def times(self) -> tuple[np.ndarray, str]:
        times = self.model.times if self.model else {}
        x = np.array([times[s.period, s.step][1] if times else n for n, s in enumerate(self.listing.steps, 1)])
        return x, f"time, {self.time}" if times else "step"

    def step_edges(self) -> np.ndarray:
        """The begin of the first step and the ends of all."""
        return np.concatenate([[0.0], self.times()[0]])

    def add_hydrographs(self, cells: list[Cell]) -> None:
        steps = self.listing.steps
        cells = cells or (self.curve_cells() if self.listing.is_span else [])
        if cells:
            last = steps[-1]
            values = [last.low, last.high] + [last.width()] * self.listing.is_span
            rows = [[" ".join(map(str, c)), *(decimal_text(v[self.listing.at(c)], 9) for v in values)] for c in cells]
            sides = ["lower", "upper"] + ["upper less lower"] * self.listing.is_span
            heading = ["layer row column, last step", *(f"{side}, {self.unit}" for side in sides)]
            self.page.table(HYDROGRAPHS, heading, rows)
        if len(steps) > 1:
            self.jobs.append(partial(self.draw_hydrographs, cells or self.curve_cells()))

    def draw_hydrographs(self, cells: list[Cell]) -> None:
        x, label = self.times()
        wells, lines = [cell for cell, _ in self.elements.get("WEL", [])], []
        for cell in cells:
            at = self.listing.at(cell)
            name = "layer {} row {} column {}".format(*cell) + " (well)" * (cell in wells)
            low, high = np.array([(s.low[at], s.high[at]) for s in self.listing.steps]).T / 1e9
            lines.append((name, low, high))
        curves.bands(self.album, "hydrographs", x, lines, label, f"head, {self.unit}", "Hydrographs")
        self.page.picture(
            HYDROGRAPHS, "hydrographs.png", f"Bands between lower and upper heads. {self.widest_of(self.listing.steps)}"
        )
