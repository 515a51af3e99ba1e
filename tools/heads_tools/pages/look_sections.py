"""The sections of a listing's page."""
from __future__ import annotations

from functools import partial

import numpy as np

from . import curves
from ..listing.listing import Step
from .look_ranges import Ranges
from .looking import SECTIONS


class Sections(Ranges):
    """Sections along a row and a column, in the scale of the maps."""

    def add_sections(self, step: Step, row: int, col: int) -> None:
        nlay, nrow, ncol = self.shape
        if self.model is None:
            return
        if ncol > 1 and (nlay > 1 or nrow > 1):
            self.jobs.append(
                partial(
                    self.draw_section,
                    step,
                    f"section_row{row}",
                    f"Section along row {row}, from west to east",
                    np.s_[:, row - 1],
                    1,
                    row,
                )
            )
        if nrow > 1 and (nlay > 1 or ncol > 1):
            title = f"Section along column {col}, from south to north"
            self.jobs.append(
                partial(self.draw_section, step, f"section_column{col}", title, np.s_[:, :, col - 1], 2, col)
            )

    def draw_section(self, step: Step, name: str, title: str, where: tuple, axis: int, number: int) -> None:
        other, top, bottom = 3 - axis, self.plan.top, self.plan.bottom
        if top is None or bottom is None:
            return
        met = [
            (kind, cell[0], cell[other] - 1, levels)
            for kind, found in self.elements.items()
            for cell, levels in found
            if cell[axis] == number
        ]
        edges = self.plan.x if axis == 1 else self.plan.y
        low, high, below = (self.grid(v)[where] for v in (step.low, step.high, self.is_below(step) * 1e9))
        top, bottom = self.plan.levels()
        upper = high if self.listing.is_span else None
        names = f"{title}\n{self.when(step)}"
        cut = curves.Cut(names, edges, low, top[where], bottom[where], met, upper, below == 1)
        if self.shape[0] == 1:
            curves.head_section(self.album, name, self.plan, cut)
        else:
            curves.cell_section(self.album, name, self.plan, cut, self.scales([step])[0])
        shown = "lower to upper heads" if self.listing.is_span and self.shape[0] == 1 else "lower heads"
        self.page.picture(SECTIONS, f"{name}.png", f"{title}: {shown}. {self.widest_of([step])}")
