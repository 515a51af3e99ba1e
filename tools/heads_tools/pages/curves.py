"""Curves: sections, heads along a model, hydrographs, and the terms of the budget over time and in one step."""
from __future__ import annotations

from dataclasses import dataclass

import numpy as np
from matplotlib.axes import Axes
from matplotlib.collections import PolyCollection
from matplotlib.colors import Normalize
from matplotlib.ticker import MaxNLocator

from .maps import HEADS_MAP, TOP_COLOURS, label
from .pictures import MARKS, NO_FLOW, WIDTH, Album, Plan, box, legend_below, mark, patch

LEFT, WIDE, TALL, STRIP = 0.8, 5.2, 2.6, 1.0
BESIDE_BAR = 4.4
RED = TOP_COLOURS[-1]
# Curves nearer than this part of the axis look like one line. A dash's length, in widths of the line.
LINE, DASH = 0.006, 5.0


@dataclass
class Cut:
    """A section along a row or a column: edges of its cells in the plan's axis; heads, tops and bottoms, shape (layers,
    cells); `marks`: kind, layer from 1, cell along the cut from 0, elevations (stage, bottom, drain) of its entries;
    `upper`: the upper heads, where they lie far above the lower ones; `below`: the cells whose every exact head lies
    below the cell's top."""

    title: str
    edges: np.ndarray
    lower: np.ndarray
    top: np.ndarray
    bottom: np.ndarray
    marks: list[tuple[str, int, int, list[float]]]
    upper: np.ndarray | None = None
    below: np.ndarray | None = None

    @property
    def middles(self) -> np.ndarray:
        return (self.edges[1:] + self.edges[:-1]) / 2


def plain(axes: Axes) -> None:
    """Axes without the frame's upper and right sides. A power of ten of the numbers stands on the right: the title is
    on the left."""
    axes.yaxis.set_offset_position("right")
    for side in ("top", "right"):
        axes.spines[side].set_visible(False)


def head_section(album: Album, name: str, plan: Plan, cut: Cut) -> None:
    """A section of one layer: the head over the distance, with top, bottom, stages and wells; where the aquifer lies
    far from the heads, below them a strip with both."""
    low, high = limits(cut)
    ends = min(float(np.min(cut.bottom)), low), max(float(np.max(cut.top)), high)
    strip = 0.0 if ends == (low, high) else STRIP
    with album.figure(name, WIDTH, TALL + 1.85 + strip) as figure:
        axes = box(figure, LEFT, 1.3 + strip, WIDE, TALL)
        handles = ground(axes, plan, cut)
        handles = [*heads(axes, cut), *handles, *stages(axes, cut)]
        axes.set(
            xlim=(cut.edges.min(), cut.edges.max()), ylim=(low, high), ylabel=f"elevation, {plan.unit}", title=cut.title
        )
        lowest = axes
        if strip:
            axes.tick_params(labelbottom=False)
            lowest = box(figure, LEFT, 1.3, WIDE, strip - 0.2)
            ground(lowest, plan, cut)
            heads(lowest, cut)
            lowest.set(xlim=axes.get_xlim(), ylim=(ends[0], ends[1] + 0.05 * (ends[1] - ends[0])), ylabel="the whole")
        lowest.set_xlabel(f"distance, {plan.axis}")
        legend_below(lowest, handles, 0.55, 3)


def ground(axes: Axes, plan: Plan, cut: Cut) -> list:
    """The aquifer of a section of one layer, grey, and the tops that lie above every exact head, red; their entries of
    a legend."""
    plain(axes)
    top, bottom = cut.top[0], cut.bottom[0]
    aquifer = axes.fill_between(
        cut.edges,
        np.append(bottom, bottom[-1]),
        np.append(top, top[-1]),
        color="0.88",
        step="post",
        label=f"aquifer, {np.min(bottom):.4g} to {np.max(top):.4g} {plan.unit}",
    )
    return [aquifer, *tops(axes, cut)]


def tops(axes: Axes, cut: Cut) -> list:
    """Draws the tops of the cells whose heads lie below them; their entry of a legend."""
    if cut.below is None or not cut.below.any():
        return []
    k, j = np.nonzero(cut.below)
    lines = axes.hlines(cut.top[k, j], cut.edges[j], cut.edges[j + 1], color=RED, lw=2.0, label="top, above every head")
    return [lines]


def heads(axes: Axes, cut: Cut) -> list:
    """The heads of a section of one layer, as a line or a band."""
    x, head = cut.middles, cut.lower[0]
    (line,) = axes.plot(x, head, color="C0", lw=1.6, label="head" if cut.upper is None else "lower to upper head")
    if cut.upper is not None:
        axes.fill_between(x, head, cut.upper[0], color="C0", alpha=0.3, lw=0)
        axes.plot(x, cut.upper[0], color="C0", lw=1.0)
    return [line]


def stages(axes: Axes, cut: Cut) -> list:
    """Wells at their heads, rivers, drains and given heads at their stages, and river bottoms of a section of one
    layer."""
    x, handles = cut.middles, []
    for kind in MARKS:
        spots = [(x[at], level) for k, _, at, levels in cut.marks if k == kind for level in levels[:1]]
        if kind == "WEL":
            spots = [(x[at], cut.lower[0][at]) for k, _, at, _ in cut.marks if k == kind]
        handles += marked(axes, kind, spots)
    beds = [(x[at], levels[1]) for k, _, at, levels in cut.marks if k == "RIV" and len(levels) > 1]
    if beds:
        handles += axes.plot(*zip(*beds), "_", color=MARKS["RIV"][1], ms=8, mew=1.5, label="river bottom")
    return handles


def marked(axes: Axes, kind: str, spots: list[tuple[float, float]]) -> list:
    """Marks entries of one kind; their entry of a legend."""
    if not spots:
        return []
    shape, colour, _ = MARKS[kind]
    axes.plot(*zip(*spots), shape, color=colour, ms=5, mec="white", mew=0.4, ls="", zorder=4)
    return [mark(kind)]


def limits(cut: Cut) -> tuple[float, float]:
    """The elevations that a section of one layer shows: heads and stages, and the aquifer where it is near."""
    heads = cut.lower if cut.upper is None else np.concatenate([cut.lower, cut.upper])
    levels = np.array([v for *_, levels in cut.marks for v in levels] + heads[np.isfinite(heads)].tolist())
    low, high = float(levels.min()), float(levels.max())
    span = max(high - low, 1e-3 * max(abs(high), 1e-6))
    top, bottom = float(np.max(cut.top)), float(np.min(cut.bottom))
    if low - bottom < 2.5 * span and top - high < 2.5 * span:
        return min(low, bottom), max(high, top) + 0.12 * span
    return low - 0.15 * span, high + 0.12 * span


def cell_section(album: Album, name: str, plan: Plan, cut: Cut, norm: Normalize) -> None:
    """A section of many layers: cells between their tops and bottoms in the colour of their head, with contours."""
    with album.figure(name, WIDTH, TALL + 1.5) as figure:
        axes = box(figure, LEFT, 0.95, BESIDE_BAR, TALL)
        corner = lambda k, j: [
            (cut.edges[j], cut.bottom[k, j]),
            (cut.edges[j + 1], cut.bottom[k, j]),
            (cut.edges[j + 1], cut.top[k, j]),
            (cut.edges[j], cut.top[k, j]),
        ]
        shapes = [corner(k, j) for k, j in np.ndindex(cut.lower.shape)]
        cells = PolyCollection(
            shapes,
            array=np.ma.masked_invalid(cut.lower.ravel()),
            cmap=HEADS_MAP,
            norm=norm,
            edgecolors="0.6",
            linewidths=0.2 if cut.lower.shape[1] <= 40 else 0,
        )
        cells.cmap.set_bad(NO_FLOW)
        cells.set_rasterized(len(shapes) > 3000)
        axes.add_collection(cells)
        lines_of_head(axes, cut)
        handles = []
        for kind in MARKS:
            spots = [
                (cut.middles[at], (cut.top[k - 1, at] + cut.bottom[k - 1, at]) / 2)
                for q, k, at, _ in cut.marks
                if q == kind
            ]
            handles += marked(axes, kind, spots)
        handles += tops(axes, cut)
        if np.isnan(cut.lower).any():
            handles.append(patch(NO_FLOW, "no flow"))
        axes.set(
            xlim=(cut.edges.min(), cut.edges.max()),
            ylim=(float(np.min(cut.bottom)), float(np.max(cut.top))),
            ylabel=f"elevation, {plan.unit}",
            xlabel=f"distance, {plan.axis}",
            title=cut.title,
        )
        legend_below(axes, handles, 0.55, 4)
        figure.colorbar(cells, cax=box(figure, LEFT + BESIDE_BAR + 0.1, 0.95, 0.13, TALL)).set_label(
            f"lower head, {plan.unit}"
        )


def lines_of_head(axes: Axes, cut: Cut) -> None:
    """Contours of the heads of a section, through the middles of its cells; at its edges a cell's head holds up to the
    edge."""
    here = cut.lower[np.isfinite(cut.lower)]
    if min(cut.lower.shape) < 2 or not here.size or np.ptp(here) <= 1e-9 * max(abs(here.max()), 1):
        return
    levels = [v for v in MaxNLocator(8).tick_values(here.min(), here.max()) if here.min() < v < here.max()]
    middles = np.concatenate([cut.top[:1], (cut.top + cut.bottom) / 2, cut.bottom[-1:]])
    along = np.tile(np.concatenate([cut.edges[:1], cut.middles, cut.edges[-1:]]), (len(middles), 1))
    edge = lambda values: np.pad(values, ((0, 0), (1, 1)), mode="edge")
    values = np.ma.masked_invalid(np.pad(cut.lower, 1, mode="edge"))
    lines = axes.contour(along, edge(middles), values, levels=levels, colors="k", linewidths=0.5)
    size = np.array([np.ptp(cut.edges), np.ptp(middles)])
    long = [
        level
        for level, parts in zip(lines.levels, lines.allsegs)
        if any((np.ptp(part, axis=0) / size).max() > 0.2 for part in parts if len(part))
    ]
    if long:
        label(axes, lines, long)


Curve = tuple[str, np.ndarray, np.ndarray]


def bands(
    album: Album,
    name: str,
    x: np.ndarray,
    curves: list[Curve],
    xlabel: str,
    ylabel: str,
    title: str,
    is_down: bool = False,
    is_rate: bool = False,
    dots: tuple[np.ndarray, np.ndarray] | None = None,
) -> None:
    """Bands between lower and upper values over time or distance. `is_down`: greater values lie lower; `is_rate`: a
    value holds from one x to the next, of which there is one more; `dots`: red dots, cells whose heads lie below their
    tops."""
    columns = max(1, min(len(curves), 70 // (8 + max(len(name) for name, *_ in curves))))
    rows = -(-(len(curves) + (dots is not None)) // columns)
    with album.figure(name, WIDTH, TALL + 1.1 + 0.19 * rows) as figure:
        axes = box(figure, LEFT, 0.7 + 0.19 * rows, WIDE, TALL)
        plain(axes)
        handles = []
        for (n, (text, *sides)), (place, count) in zip(enumerate(curves), places_on_one_line(curves)):
            low, high = (np.concatenate([v[:1], v]) if is_rate else v for v in sides)
            step, style = ("pre", "steps-pre") if is_rate else (None, "default")
            line = {"color": f"C{n % 10}", "drawstyle": style, "ls": dashes(place, count)}
            dot = {} if is_rate or len(x) >= 40 else {"marker": "o", "ms": 2.5, "markevery": (place, count)}
            axes.fill_between(x, low, high, color=line["color"], alpha=0.4, lw=0, step=step)
            axes.plot(x, high, lw=0.8, **line)
            handles += axes.plot(x, low, label=text, **line, **dot)
        if dots is not None:
            handles += axes.plot(*dots, "x", color=RED, ms=4, zorder=4, label="head below the cell's top")
        axes.set(xlabel=xlabel, ylabel=ylabel, title=title)
        if is_down:
            axes.invert_yaxis()
        legend_below(axes, handles, 0.55, columns)


def places_on_one_line(curves: list[Curve]) -> list[tuple[int, int]]:
    """For each curve its place, from 0, among those that lie on one another at more than half of their points, and how
    many these are."""
    lows = [low for _, low, _ in curves]
    here = np.concatenate(lows)
    room = LINE * float(np.nanmax(here) - np.nanmin(here))
    groups: list[list[int]] = []
    for n, low in enumerate(lows):
        near = [group for group in groups if (np.abs(lows[group[0]] - low) <= room).mean() > 0.5]
        if near:
            near[0].append(n)
        else:
            groups.append([n])
    return [(group.index(n), len(group)) for n in range(len(lows)) for group in groups if n in group]


def dashes(place: int, count: int) -> str | tuple:
    """The style of a line of several that lie on one another: dashes in turn, so that each is seen."""
    return "-" if count == 1 else (place * DASH, (DASH, DASH * (count - 1)))


def budget_bars(
    album: Album, name: str, rows: list[tuple[str, float, float, float, float]], unit: str, title: str
) -> None:
    """Bars of what comes in and goes out by term: the lower flows solid, up to the upper ones pale."""
    tall = 0.34 * len(rows)
    with album.figure(name, WIDTH, tall + 1.0) as figure:
        axes = box(figure, 1.4, 0.6, WIDTH - 1.6, tall)
        plain(axes)
        for n, (_, in_low, in_high, out_low, out_high) in enumerate(rows):
            for sign, low, high, colour in ((1, in_low, in_high, "steelblue"), (-1, out_low, out_high, "indianred")):
                axes.barh(n, sign * high, color=colour, alpha=0.35)
                axes.barh(n, sign * low, color=colour)
        axes.set_yticks(range(len(rows)), [r[0].lower() for r in rows])
        axes.invert_yaxis()
        axes.axvline(0, color="k", lw=0.6)
        axes.set(xlabel=f"out (left) and in (right), {unit}", title=title)


def span_bars(album: Album, name: str, rows: list[tuple[str, float, float]], label: str, title: str) -> None:
    """A bar of each row with both ends: solid up to the end that lies nearer to 0, pale up to the other one; where 0
    lies between, pale to both."""
    tall = 0.34 * len(rows)
    with album.figure(name, WIDTH, tall + 1.0) as figure:
        axes = box(figure, 1.4, 0.6, WIDTH - 1.6, tall)
        plain(axes)
        for n, (_, low, high) in enumerate(rows):
            colour = "steelblue" if high > 0 else "indianred"
            axes.barh(n, high - low, left=low, color=colour, alpha=0.35)
            axes.barh(n, max(low, 0.0) + min(high, 0.0), color=colour)
            axes.plot([low, high], [n, n], ls="none", marker="|", ms=9, color="k", mew=0.8)
        axes.set_yticks(range(len(rows)), [row[0].lower() for row in rows])
        axes.invert_yaxis()
        axes.axvline(0, color="k", lw=0.6)
        axes.set(xlabel=label, title=title)
