"""Zones of a listing: their numbers by cell, the net flow of each, and a map of both."""
from __future__ import annotations

from dataclasses import dataclass

import numpy as np
from matplotlib.axes import Axes
from matplotlib.colors import ListedColormap, Normalize

from ..listing.listing import Step
from ..listing.zones import net_flows
from .maps import HALO, LEFT, draw, marks
from .pictures import NO_FLOW, WIDTH, Album, Plan, box, legend_below, patch

COLOURS = ["#c6dbef", "#fdd0a2", "#c7e9c0", "#dadaeb", "#fcbba1", "#fff3b0", "#d0d1e6", "#e5d8bd"]
MOST_ARROWS = 30
PLATE = {"boxstyle": "round,pad=0.2", "fc": "white", "ec": "none", "alpha": 0.8}


def middle(plan: Plan, here: np.ndarray) -> tuple[float, float]:
    """A place in the midst of a zone: that of its cell that is nearest to the mean of all."""
    x, y = plan.middles
    rows, cols = np.nonzero(here)
    near = int(np.argmin((x[cols] - x[cols].mean()) ** 2 + (y[rows] - y[rows].mean()) ** 2))
    return float(x[cols[near]]), float(y[rows[near]])


@dataclass
class ZoneMap:
    """What a map of zones shows: the zones of a layer, shape (rows, cols), where it has flow, and a step's flows with
    their decimals and their unit."""

    layer: int
    zones: np.ndarray
    active: np.ndarray
    step: Step
    places: int
    unit: str
    title: str


def zone_map(album: Album, name: str, plan: Plan, it: ZoneMap) -> None:
    """The zones of a layer with the net flow into each, and arrows the way that water flows between two zones."""
    numbers = [z for z in np.unique(it.zones[it.active]).tolist() if z]
    wide = WIDTH - LEFT - 0.25
    tall = wide * plan.ratio
    with album.figure(name, WIDTH, tall + 1.5) as figure:
        axes = box(figure, LEFT, 1.1, wide, tall)
        colours = ListedColormap([COLOURS[n % len(COLOURS)] for n in range(max(1, len(numbers)))])
        places = np.searchsorted(numbers, it.zones).astype(float)
        places[~(it.active & (it.zones > 0))] = np.nan
        draw(axes, plan, places, colours, Normalize(-0.5, len(numbers) - 0.5))
        handles = marks(axes, plan, it.layer, wide)
        write_flows(axes, {z: middle(plan, (it.zones == z) & it.active) for z in numbers}, it)
        if np.isnan(places).any():
            handles.append(patch(NO_FLOW, "no zone, or no flow"))
        axes.set(xlabel=plan.axis, ylabel=plan.axis, title=it.title)
        legend_below(axes, handles, 0.5, 4)
        across, up = figure.get_size_inches()
        figure.text(
            LEFT / across, 0.12 / up, f"flows in {it.unit}, rounded; their bounds stand in the listing", fontsize=9
        )


def write_flows(axes: Axes, spots: dict[int, tuple[float, float]], it: ZoneMap) -> None:
    """The net flow at the spot of each zone, and arrows between the spots for the largest flows."""
    nets = net_flows(it.step)
    for z, (x, y) in spots.items():
        net = sum(nets.get(z, (0, 0))) / 2 / 10**it.places
        text = f"zone {z}\nnet {net:+.4g}"
        axes.text(x, y, text, ha="center", va="center", fontsize=9, bbox=PLATE, zorder=5)
    pairs = [f for f in it.step.zones if f[0] in spots and f[1] in spots and not f[2] <= 0 <= f[3]]
    for a, b, low, high in sorted(pairs, key=lambda f: -abs(f[2] + f[3]))[:MOST_ARROWS]:
        tail, head = (a, b) if low > 0 else (b, a)
        arrow(axes, spots[tail], spots[head], abs(low + high) / 2 / 10**it.places)


def arrow(axes: Axes, tail: tuple[float, float], head: tuple[float, float], flow: float) -> None:
    """An arrow between the middles of two zones with its flow beside it."""
    (x, y), (u, v) = tail, head
    at = lambda t: (x + t * (u - x), y + t * (v - y))
    axes.annotate("", at(0.68), at(0.32), arrowprops={"arrowstyle": "-|>", "color": "0.15", "lw": 1.4}, zorder=4)
    axes.annotate(
        f"{flow:.4g}",
        at(0.5),
        (0, 7),
        textcoords="offset points",
        ha="center",
        fontsize=9,
        path_effects=HALO,
        zorder=6,
    )
