"""Other heads beside those of a listing, on its page."""
from __future__ import annotations

from functools import partial
from pathlib import Path

import numpy as np

from . import maps
from ..listing.compare import compare, sentences
from ..planning.drawdown import Drawdown, difference
from ..listing.headfile import read_heads
from ..listing.listing import Listing
from .looking import GIVEN, MINUS, Looking
from ..common.text import decimal_text


class Others(Looking):
    """Given heads, and the difference from another listing."""

    def add_given(self, given: Path) -> None:
        differences = compare(self.listing, read_heads(given))
        told = sentences(self.listing, differences, self.unit)
        steps = len([d for d in differences if not np.isnan(d.most).all()])
        for text in told[steps:]:
            self.page.say(f"{given.name}: {text}")
        self.page.table(
            GIVEN,
            ["step by step"],
            [[text] for text in told[:steps]],
            f"{given.name}, step by step" if steps > 3 else "",
        )
        last = differences[-1]
        most = self.listing.grid(last.least if self.listing.is_span else last.most, self.shape)
        if min(self.shape[1:]) > 1:
            self.jobs += [
                partial(self.draw_given, given.name, most[k], k + 1, self.when(last.step))
                for k in range(self.shape[0])
                if np.isfinite(most[k]).any()
            ]

    def draw_given(self, name: str, most: np.ndarray, layer: int, when: str) -> None:
        is_span = self.listing.is_span
        off = "lies outside by at least" if is_span else "is off by at most"
        title = f"Layer {layer}, {when}: {name} {off}"
        nought = "within the bounds" if is_span else "not off"
        maps.error_map(self.album, f"off_layer{layer}", self.plan, most, layer, title, self.unit, nought)
        self.page.picture(
            GIVEN,
            f"off_layer{layer}.png",
            f"{name}, layer {layer}: "
            + ("outside the bounds" if is_span else "off from every exact solution by at most this much"),
            title if layer > 1 else "",
        )

    def add_minus(self, base: Listing) -> None:
        changes = difference(self.listing, base)
        for text in Drawdown(self.listing, base, changes, self.unit, self.model).sentences([]):
            self.page.text(MINUS, text)
        self.page.text(
            MINUS,
            f"The plan is {self.listing.path.name}, the other run {base.path.name}, which wasn't checked: "
            "the differences hold only if its pairs are bounds (`heads-tools drawdown` checks both).",
        )
        last = changes[-1]
        middle = self.grid((last.low + last.high) / 2)
        widest = decimal_text(int((last.high - last.low).max()), 9)
        if min(self.shape[1:]) > 1:
            self.jobs += [
                partial(self.draw_minus, base.path.name, middle[k], k + 1, widest, self.when(last))
                for k in range(self.shape[0])
                if np.isfinite(middle[k]).any()
            ]

    def draw_minus(self, base: str, middle: np.ndarray, layer: int, widest: str, when: str) -> None:
        title, scale = f"Layer {layer}, {when}: heads less those of {base}", f"difference, {self.unit}"
        colours = maps.change_scale(float(np.nanmin(middle)), float(np.nanmax(middle)), maps.CHANGE_MAP)
        maps.layer_map(self.album, f"minus_layer{layer}", self.plan, middle, layer, title, scale, *colours)
        self.page.picture(
            MINUS,
            f"minus_layer{layer}.png",
            f"{title}. Below 0 (red) the head is lower than in {base}. "
            f"The middles of the bounds are drawn, which are at most {widest} {self.unit} apart",
            title if layer > 1 else "",
        )
