"""On a listing's page: the cells whose heads lie below their own tops."""
from __future__ import annotations

from functools import partial

import numpy as np

from . import maps
from ..listing.below_top import BelowTop, Layer
from .looking import TOPS, Looking

MOST_LAYERS = 20


class Tops(Looking):
    """What a model's own heads say against its confined layers, with a map of each layer."""

    def add_below_top(self) -> None:
        if self.below_top is None:
            return
        for text in self.below_top.sentences(self.verdict.is_certified):
            self.page.say(text)
        if min(self.shape[1:]) > 1:
            layers = self.below_top.layers[:MOST_LAYERS]
            self.jobs += [partial(self.draw_below_top, self.below_top, each, each is not layers[0]) for each in layers]

    def draw_below_top(self, tops: BelowTop, layer: Layer, is_folded: bool) -> None:
        last = self.listing.steps[-1]
        cases = tops.is_below(last), tops.below > 0, tops.perhaps > 0
        kinds = np.select(cases, [maps.BELOW, maps.BELOW_ONCE, maps.PERHAPS], maps.FULL)
        name, title = f"below_top_layer{layer.number}", f"Layer {layer.number}: heads below the tops of their cells"
        values = self.listing.grid(kinds, self.shape)[layer.number - 1]
        maps.below_top_map(self.album, name, self.plan, values, layer.number, title, len(self.listing.steps) > 1)
        self.page.picture(
            TOPS,
            f"{name}.png",
            f"Layer {layer.number}, {self.when(last)}: cells whose upper head lies below the cell's top",
            title if is_folded else "",
        )
