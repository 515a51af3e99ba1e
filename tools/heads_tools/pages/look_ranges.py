"""The maps of a listing of two decks: the lower heads, the upper ones, and how far they lie apart."""
from __future__ import annotations

from functools import partial

import numpy as np
from matplotlib.colors import Normalize

from . import maps
from ..listing.listing import Step
from .look_maps import Maps
from .looking import HEADS
from .pictures import head_scale

SIDES = {
    "lower": "no exact solution of a deck between the two has a lower head: the worst case where heads must not fall",
    "upper": "no exact solution of a deck between the two has a higher head: the worst case where heads must not rise",
    "range": "upper less lower head: two exact solutions of decks between the two lie at most this far apart",
}


class Ranges(Maps):
    """Maps of a listing of two decks in place of those of a listing of one."""

    def add_steps(self, steps: list[Step]) -> None:
        if not self.listing.is_span or 1 in self.shape[1:]:
            super().add_steps(steps)
            return
        heads = head_scale(np.array([v for s in steps for v in (s.low.min(), s.high.max())]) / 1e9)
        widths = Normalize(0, max(int(s.width().max()) for s in steps) / 1e9 or 1)
        here = sorted({int(k) for k in self.listing.cells[:, 0]}, key=lambda k: k != self.place[0])
        scales = {"lower": heads, "upper": heads, "range": widths}
        self.jobs += [
            partial(self.draw_side, step, k, side, scales[side], step is steps[-1] and k == here[0])
            for step in reversed(steps)
            for k in here
            for side in SIDES
        ]

    def draw_side(self, step: Step, layer: int, side: str, scale: Normalize, is_open: bool) -> None:
        values = self.grid({"lower": step.low, "upper": step.high, "range": step.width()}[side])[layer - 1]
        name = f"{side}_layer{layer}_p{step.period}_s{step.step}"
        title = f"{side.capitalize()}{'' if side == 'range' else ' heads'} of layer {layer}, {self.when(step)}"
        colours = maps.WIDTH_MAP if side == "range" else maps.HEADS_MAP
        label = f"{'upper less lower' if side == 'range' else side} head, {self.unit}"
        maps.layer_map(self.album, name, self.plan, values, layer, title, label, colours, scale)
        self.page.picture(HEADS, f"{name}.png", f"{title}: {SIDES[side]}", "" if is_open else title)
