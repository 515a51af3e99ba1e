"""Maps of a layer: heads with the widths of their pairs, many layers or steps in one figure, differences, zones."""
from __future__ import annotations

import math

import numpy as np
from matplotlib import colormaps
from matplotlib.axes import Axes
from matplotlib.collections import QuadMesh
from matplotlib.colorbar import Colorbar
from matplotlib.colors import Colormap, LinearSegmentedColormap, ListedColormap, Normalize
from matplotlib.contour import ContourSet
from matplotlib.figure import Figure
from matplotlib.lines import Line2D
from matplotlib.patches import Rectangle
from matplotlib.patheffects import withStroke
from matplotlib.text import Text
from matplotlib.ticker import MaxNLocator

from .pictures import KNOWN, MARKS, NO_FLOW, WIDTH, Album, Plan, box, legend_below, mark, patch, width_scale

HEADS_MAP, WIDTH_MAP, ERROR_MAP, CHANGE_MAP, FALL_MAP = "viridis", "magma_r", "cividis_r", "RdBu", "RdBu_r"
LEFT, MAP_WIDTH, THUMB_WIDTH = 0.75, 4.5, 1.5
MOST_LINES, MOST_LABELS = 60, 14
HALO = [withStroke(linewidth=2.2, foreground="white")]


def draw(axes: Axes, plan: Plan, values: np.ndarray, cmap: str | Colormap, norm: Normalize):
    """Values of a layer as coloured cells, grey where there are none."""
    axes.set_facecolor(NO_FLOW)
    mesh = axes.pcolormesh(
        plan.x, plan.y, np.ma.masked_invalid(values), cmap=cmap, norm=norm, rasterized=True, linewidth=0
    )
    axes.set(xlim=(plan.x[0], plan.x[-1]), ylim=(plan.y[-1], plan.y[0]))
    if plan.is_true:
        axes.set_aspect("equal", anchor="SW")
    return mesh


def contours(axes: Axes, plan: Plan, values: np.ndarray, norm: Normalize) -> None:
    """Contours at the round numbers of the page's scale, or of the layer's range where few of those fall into it."""
    if min(values.shape) < 2 or not np.isfinite(values).any():
        return
    low, high = float(np.nanmin(values)), float(np.nanmax(values))
    if high - low <= 1e-9 * max(abs(high), 1):
        return
    is_round = isinstance(norm, RoundNorm)
    numbers = norm.bounds.tolist() if is_round else MaxNLocator(10).tick_values(norm.vmin, norm.vmax)
    levels = [v for v in numbers if low < v < high]
    if len(levels) < 4:
        levels = [v for v in MaxNLocator(8).tick_values(low, high) if low < v < high]
    if not levels:
        return
    lines = axes.contour(*plan.middles, np.ma.masked_invalid(values), levels=levels, colors="k", linewidths=0.5)
    least = 0.12 * max(plan.x[-1], plan.y[0])
    long = [
        level
        for level, parts in zip(lines.levels, lines.allsegs)
        if any(np.ptp(part, axis=0).max() > least for part in parts if len(part))
    ]
    if long and sum(map(len, lines.allsegs)) <= MOST_LINES:
        every = -(-sum(len(parts) for level, parts in zip(lines.levels, lines.allsegs) if level in long) // MOST_LABELS)
        label(axes, lines, long[::every])


def label(axes: Axes, lines: ContourSet, levels: list[float]) -> None:
    """Writes the numbers of contours over their lines, which stay whole: a white edge parts the two."""
    apart(axes, axes.clabel(lines, levels, fontsize=8, fmt="%g", zorder=5, inline=False))


def apart(axes: Axes, labels: list[Text]) -> None:
    """Hides each label of a contour that lies nearer than 0.3 inches to one that is shown, or at the edge of the
    axes."""
    shown: list[np.ndarray] = []
    edges = axes.bbox.get_points() / axes.figure.dpi
    for label in labels:
        spot = axes.transData.transform(label.get_position()) / axes.figure.dpi
        label.set_path_effects(HALO)
        is_within = np.abs(edges - spot).min() > 0.12
        label.set_visible(is_within and all(np.hypot(*(spot - other)) > 0.3 for other in shown))
        if label.get_visible():
            shown.append(spot)


def marks(axes: Axes, plan: Plan, layer: int, inches: float) -> list[Line2D]:
    """Marks wells, rivers, drains and given heads of a layer; their entries of a legend."""
    size = min(6.0, max(1.6, 0.75 * 72 * inches / (len(plan.x) - 1)))
    x, y = plan.middles
    handles = []
    for kind, (shape, colour, _) in MARKS.items():
        rows, cols = plan.spots(kind, layer)
        if len(rows):
            least = 5.0 if kind == "WEL" else size
            axes.plot(
                x[cols - 1],
                y[rows - 1],
                shape,
                color=colour,
                ms=max(size, least),
                mec="white",
                mew=0.4 if max(size, least) > 3 else 0,
                ls="",
                zorder=3,
            )
            handles.append(mark(kind))
    return handles


def head_map(
    album: Album,
    name: str,
    plan: Plan,
    lower: np.ndarray,
    width: np.ndarray,
    layer: int,
    title: str,
    scales: tuple[Normalize, Normalize],
    cut: tuple[int, int] | None,
) -> None:
    """A large map of the lower heads of a layer, and below it a small one of the widths. `cut`: row, column of the
    sections."""
    tall, thumb_tall = MAP_WIDTH * plan.ratio, THUMB_WIDTH * plan.ratio
    base = 0.15 + max(thumb_tall, 0.55) + 0.3 + 0.85
    with album.figure(name, WIDTH, base + tall + 0.35) as figure:
        axes = box(figure, LEFT, base, MAP_WIDTH, tall)
        mesh = draw(axes, plan, lower, HEADS_MAP, scales[0])
        contours(axes, plan, lower, scales[0])
        handles = marks(axes, plan, layer, MAP_WIDTH)
        if np.isnan(lower).any():
            handles.append(patch(NO_FLOW, "no flow"))
        if cut and min(lower.shape) > 1:
            x, y = plan.middles
            axes.axhline(y[cut[0] - 1], color="k", lw=0.7, ls=":")
            axes.axvline(x[cut[1] - 1], color="k", lw=0.7, ls=":")
            handles.append(Line2D([], [], color="k", lw=0.7, ls=":", label="sections"))
        axes.set(xlabel=plan.axis, ylabel=plan.axis, title=title)
        legend_below(axes, handles, 0.5, 4)
        bar = figure.colorbar(mesh, cax=box(figure, LEFT + MAP_WIDTH + 0.1, base, 0.13, tall))
        bar.set_label(f"lower head, {plan.unit}")
        thumbnail(figure, plan, width, scales[1], (LEFT, 0.15, thumb_tall))


def thumbnail(
    figure: Figure, plan: Plan, width: np.ndarray, norm: Normalize, place: tuple[float, float, float]
) -> None:
    """A small map of widths: white where the head is known, so that the width is 0. Its scale is told beside it.
    `place`: left, bottom and height in inches."""
    axes = box(figure, place[0], place[1], THUMB_WIDTH, place[2])
    axes.set(xticks=[], yticks=[])
    draw(axes, plan, np.where(width > 0, width, np.nan), WIDTH_MAP, norm)
    if (width == 0).any():
        overlay(axes, plan, width == 0)
    words = ["upper less lower head", f"darker: wider, up to {norm.vmax:.2g} {plan.unit}"]
    words += ["white: known head"] if (width == 0).any() else []
    axes.text(1.06, 1, "\n".join(words), transform=axes.transAxes, va="top", fontsize=9)


def small_maps(
    album: Album,
    name: str,
    plan: Plan,
    panels: list[tuple[str, np.ndarray]],
    label: str,
    colours: str | Colormap,
    norm: Normalize,
) -> None:
    """Many layers or steps in one figure and one scale, all in one pair of axes, whose unit is an inch."""
    across = min(len(panels), 4 if plan.ratio < 1.4 else 6)
    wide = min(2.4, (WIDTH - 1.05 - 0.1 * (across - 1)) / across)
    tall = wide * plan.ratio
    room = max(math.ceil(len(panels) / across) * (tall + 0.27), 1.0)
    with album.figure(name, WIDTH, room + 0.2) as figure:
        axes = box(figure, 0, 0, WIDTH, room + 0.2)
        axes.set(xlim=(0, WIDTH), ylim=(0, room + 0.2))
        axes.set_axis_off()
        mesh = None
        for n, (title, values) in enumerate(panels):
            i, j = divmod(n, across)
            left, bottom = 0.05 + j * (wide + 0.1), room + 0.2 - (i + 1) * (tall + 0.27)
            x, y = left + plan.x / plan.x[-1] * wide, bottom + plan.y / plan.y[0] * tall
            axes.add_patch(Rectangle((left, bottom), wide, tall, facecolor=NO_FLOW, edgecolor="k", linewidth=0.6))
            mesh = axes.pcolormesh(x, y, np.ma.masked_invalid(values), cmap=colours, norm=norm, rasterized=True)
            axes.text(left, bottom + tall + 0.04, title, fontsize=9)
        long = min(room - 0.27, 3.0)
        place = across * (wide + 0.1) + 0.1, room + 0.2 - long - 0.27
        bar = add_bar(figure, mesh, box(figure, *place, 0.12, long))
        bar.set_label(label, fontsize=9)
        bar.ax.tick_params(labelsize=8)


# Kinds of cells of a map of tops, and how they are drawn and named: the last two names where there are several steps.
FULL, PERHAPS, BELOW_ONCE, BELOW = range(4)
TOP_COLOURS = "#dbe7f0", "#f0c75e", "#e8927c", "#b3261e"
TOP_NAMES = "head at or above the top", "may be below", "below at the end of another step", "head below the top"


def below_top_map(
    album: Album, name: str, plan: Plan, kinds: np.ndarray, layer: int, title: str, has_steps: bool
) -> None:
    """A map of the cells whose heads lie below their tops. `kinds`: one of the kinds above, nan where no flow is."""
    tall = MAP_WIDTH * plan.ratio
    with album.figure(name, WIDTH, tall + 1.5) as figure:
        axes = box(figure, LEFT, 1.1, MAP_WIDTH, tall)
        draw(axes, plan, kinds, ListedColormap(TOP_COLOURS), Normalize(-0.5, 3.5))
        names = [*TOP_NAMES[:3], TOP_NAMES[3] + ", last step" * has_steps]
        here = [kind for kind in range(4) if (kinds == kind).any()]
        handles = marks(axes, plan, layer, MAP_WIDTH) + [patch(TOP_COLOURS[kind], names[kind]) for kind in here]
        axes.set(xlabel=plan.axis, ylabel=plan.axis, title=title)
        legend_below(axes, handles + ([patch(NO_FLOW, "no flow")] if np.isnan(kinds).any() else []), 0.5, 2)


class RoundNorm(Normalize):
    """A scale in which the steps between round numbers are alike, whatever their sizes are."""

    def __init__(self, bounds: list[float]):
        super().__init__(bounds[0], bounds[-1])
        self.bounds, self.places = np.array(bounds), np.linspace(0, 1, len(bounds))

    def __call__(self, value, clip=None):
        return np.ma.masked_invalid(np.interp(np.ma.filled(value, np.nan), self.bounds, self.places))

    def inverse(self, value):
        return np.interp(value, self.places, self.bounds)


Scale = tuple[LinearSegmentedColormap, RoundNorm]
MOST_NUMBERS = 8


def round_numbers(most: float) -> list[float]:
    """1, 2 or 5 times a power of ten: the least that isn't below `most`, and those before it, the least one first."""
    power = math.floor(math.log10(most))
    series = [float(f"{digit}e{power + n}") for n in range(-3, 2) for digit in (1, 2, 5)]
    last = next(n for n, number in enumerate(series) if number >= most)
    return series[last + 1 - MOST_NUMBERS : last + 1]


def change_scale(least: float, most: float, colours: str) -> Scale:
    """The scale of changes from `least` to `most`, whose numbers are round ones of all sizes, so that a change of a
    hundredth of the greatest one is seen beside it: white about 0; a side without a change is left out."""
    numbers, palette = round_numbers(max(-least, most, 1e-9)), colormaps[colours]
    sides = [numbers if side * end > numbers[0] else numbers[:1] for side, end in ((-1, least), (1, most))]
    bounds = [*(-v for v in reversed(sides[0])), *sides[1]]
    shade = lambda v: palette(0.5 + math.copysign(numbers.index(abs(v)) / (len(numbers) - 1) / 2, v))
    painted = [KNOWN if abs(v) == numbers[0] else shade(v) for v in bounds]
    norm = RoundNorm(bounds)
    return LinearSegmentedColormap.from_list(colours, list(zip(norm.places, painted))), norm


def layer_map(
    album: Album,
    name: str,
    plan: Plan,
    values: np.ndarray,
    layer: int,
    title: str,
    label: str,
    colours: str | Colormap,
    norm: Normalize,
    nought: str = "",
    grey: str = "no flow",
) -> None:
    """A map of values of a layer, with contours and a bar. `nought`: what a value of 0 means, where such cells are left
    white and no contours are drawn. `grey`: what a cell without a value is."""
    tall = MAP_WIDTH * plan.ratio
    with album.figure(name, WIDTH, tall + 1.3) as figure:
        axes = box(figure, LEFT, 0.9, MAP_WIDTH, tall)
        mesh = draw(axes, plan, np.where(values > 0, values, np.nan) if nought else values, colours, norm)
        handles = marks(axes, plan, layer, MAP_WIDTH)
        if not nought:
            contours(axes, plan, values, norm)
        elif (values <= 0).any():
            overlay(axes, plan, values <= 0)
            handles.append(patch(KNOWN, nought))
        handles += [patch(NO_FLOW, grey)] if np.isnan(values).any() else []
        axes.set(xlabel=plan.axis, ylabel=plan.axis, title=title)
        legend_below(axes, handles, 0.5, 4)
        add_bar(figure, mesh, box(figure, LEFT + MAP_WIDTH + 0.1, 0.9, 0.13, tall)).set_label(label)


def overlay(axes: Axes, plan: Plan, where: np.ndarray) -> None:
    """Paints cells white."""
    draw(axes, plan, np.where(where, 0.0, np.nan), ListedColormap([KNOWN]), Normalize(0, 1))


def add_bar(figure: Figure, mesh: QuadMesh, axes: Axes) -> Colorbar:
    """The bar of a map's colours."""
    if isinstance(mesh.norm, RoundNorm):
        return figure.colorbar(mesh, cax=axes, ticks=mesh.norm.bounds, format="%g")
    return figure.colorbar(mesh, cax=axes)


def error_map(
    album: Album, name: str, plan: Plan, values: np.ndarray, layer: int, title: str, unit: str, nought: str
) -> None:
    """A map of how far given heads are off."""
    layer_map(album, name, plan, values, layer, title, unit, ERROR_MAP, width_scale(values, 1e-9), nought)
