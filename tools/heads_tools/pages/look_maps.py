"""The maps of a listing's page."""
from __future__ import annotations

from functools import partial

import numpy as np

from . import curves, maps
from ..listing.listing import Step
from .looking import HEADS, Looking
from .pictures import head_scale, width_scale
from ..common.text import up

MOST_PANELS = 40


class Maps(Looking):
    """Maps of layers and steps, in one scale."""

    def scales(self, steps: list[Step]):
        """One scale of heads and one of widths for all layers and steps of the page."""
        low = head_scale(np.array([v for s in steps for v in (s.low.min(), s.low.max())]) / 1e9)
        widths = np.concatenate(
            [[w[w > 0].min(initial=np.iinfo(np.int64).max), w.max()] for w in (s.width() for s in steps)]
        )
        return low, width_scale(widths[widths < np.iinfo(np.int64).max] / 1e9)

    def add_steps(self, steps: list[Step]) -> None:
        nlay, nrow, ncol = self.shape
        if nrow == 1 or ncol == 1:
            self.jobs += [partial(self.draw_profile, step) for step in steps]
            return
        scales = self.scales(steps)
        if nlay > 1:
            self.jobs.append(partial(self.draw_layers, steps[-1], scales))
        if len(steps) > 1:
            self.jobs.append(partial(self.draw_films, steps, scales))
        here = sorted({int(k) for k in self.listing.cells[:, 0]})
        first = self.place[0] if self.place[0] in here else here[0]
        order = sorted(here, key=lambda k: k != first)
        self.jobs += [
            partial(self.draw_layer, step, k, scales, step is not steps[-1] or k != first)
            for step in reversed(steps)
            for k in order
        ]

    def draw_layer(self, step: Step, layer: int, scales, is_folded: bool) -> None:
        lower, width = (self.grid(v)[layer - 1] for v in (step.low, step.width()))
        name = f"map_layer{layer}_p{step.period}_s{step.step}"
        title = f"Layer {layer}, {self.when(step)}"
        maps.head_map(
            self.album, name, self.plan, lower, width, layer, title, scales, self.place[1:] if self.model else None
        )
        widest = up(int(round(float(np.nanmax(width)) * 1e9)), 9, 9)
        caption = f"{title}: lower heads. The upper ones differ by at most {widest} {self.unit}: no colour shows it"
        self.page.picture(HEADS, f"{name}.png", caption, title if is_folded else "")

    def draw_layers(self, step: Step, scales) -> None:
        lower, width = self.grid(step.low), self.grid(step.width())
        panels = [k for k in range(self.shape[0]) if np.isfinite(lower[k]).any()]
        name = f"layers_p{step.period}_s{step.step}"
        maps.small_maps(
            self.album,
            name,
            self.plan,
            [(f"layer {k + 1}", lower[k]) for k in panels],
            f"lower head, {self.unit}",
            maps.HEADS_MAP,
            scales[0],
        )
        self.page.picture(HEADS, f"{name}.png", f"All layers, {self.when(step)}: lower heads, in one scale")
        maps.small_maps(
            self.album,
            f"{name}_widths",
            self.plan,
            [(f"layer {k + 1}", np.where(width[k] > 0, width[k], np.nan)) for k in panels],
            f"upper less lower, {self.unit}",
            maps.WIDTH_MAP,
            scales[1],
        )
        self.page.picture(
            HEADS, f"{name}_widths.png", "All layers: widths of the pairs", "Widths of the pairs, all layers"
        )

    def draw_films(self, steps: list[Step], scales) -> None:
        """The layer of the place that moves most, step after step."""
        layer = self.place[0]
        shown = steps[:: -(-len(steps) // MOST_PANELS)]
        panels = [(f"{s.period}, {s.step}", self.grid(s.low)[layer - 1]) for s in shown]
        maps.small_maps(self.album, "steps", self.plan, panels, f"lower head, {self.unit}", maps.HEADS_MAP, scales[0])
        self.page.picture(
            HEADS, "steps.png", f"Layer {layer}, period and step above each map: lower heads, in one scale"
        )

    def draw_profile(self, step: Step) -> None:
        """A model of one row or column: heads along it, layer by layer."""
        lower, upper = self.grid(step.low), self.grid(step.high)
        along = self.plan.middles[0] if self.shape[1] == 1 else self.plan.middles[1]
        layers = [k for k in range(self.shape[0]) if np.isfinite(lower[k]).any()]
        chosen = layers[:: max(1, len(layers) // 8)]
        lines = [(f"layer {k + 1}", lower[k].ravel(), upper[k].ravel()) for k in chosen]
        name, title = f"profile_p{step.period}_s{step.step}", f"Heads along the model, {self.when(step)}"
        dots = self.dots_below(step, along, chosen)
        curves.bands(
            self.album, name, along, lines, f"distance, {self.plan.axis}", f"head, {self.unit}", title, dots=dots
        )
        self.page.picture(HEADS, f"{name}.png", f"{title}. {self.widest_of([step])}")

    def dots_below(self, step: Step, along: np.ndarray, layers: list[int]) -> tuple[np.ndarray, np.ndarray] | None:
        """Where in these layers of a model of one row or column heads lie below the tops of their cells: distances and
        heads."""
        if not self.is_below(step).any():
            return None
        below, heads = (self.listing.grid(v, self.shape) for v in (self.is_below(step) * 1.0, step.low / 1e9))
        k, at = np.nonzero(below.reshape(self.shape[0], -1)[layers] == 1)
        return along[at], heads.reshape(self.shape[0], -1)[layers][k, at]
