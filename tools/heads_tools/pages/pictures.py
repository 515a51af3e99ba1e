"""What all pictures share: the plan of the grid, boxes in inches, scales of colour, and how a figure is saved."""
from __future__ import annotations

import io
import threading
from contextlib import contextmanager
from dataclasses import dataclass, field
from pathlib import Path
from typing import Any, Iterator

import matplotlib.style
import numpy as np
from matplotlib.axes import Axes
from matplotlib.backends.backend_agg import FigureCanvasAgg
from matplotlib.colors import LogNorm, Normalize
from matplotlib.figure import Figure
from matplotlib.lines import Line2D
from matplotlib.patches import Patch

from ..common.whole_files import write_whole


# The style is one of the whole process: figures are drawn one at a time.
ALONE = threading.Lock()
STYLE = Path(__file__).with_name("heads.mplstyle")
WIDTH = 6.2
# The least room at the left of a picture, as a part of its width.
EDGE = 0.012
NO_FLOW = "0.86"
KNOWN = "white"
MARKS = {
    "WEL": ("v", "crimson", "well"),
    "RIV": ("s", "royalblue", "river"),
    "DRN": ("s", "seagreen", "drain"),
    "GHB": ("D", "darkorange", "general head"),
    "CHD": ("s", "purple", "given head"),
}


@dataclass
class Plan:
    """The grid as it is drawn: edges of columns from the west and of rows from the south, in `axis`; the unit of heads;
    entries by kind (layer, row, column), shape (entries, 3); elevations of layers, shape (layers, rows, cols), None
    where not known."""

    x: np.ndarray
    y: np.ndarray
    unit: str
    axis: str
    entries: dict[str, np.ndarray] = field(default_factory=dict)
    top: np.ndarray | None = None
    bottom: np.ndarray | None = None

    @property
    def middles(self) -> tuple[np.ndarray, np.ndarray]:
        return (self.x[1:] + self.x[:-1]) / 2, (self.y[1:] + self.y[:-1]) / 2

    @property
    def ratio(self) -> float:
        """Height by width of a map, in true proportions where it isn't a strip."""
        ratio = float(self.y[0] / self.x[-1])
        return ratio if self.is_true else 0.6

    @property
    def is_true(self) -> bool:
        """Whether maps have the same scale in both directions."""
        return 0.2 < self.y[0] / self.x[-1] < 2.5

    def spots(self, kind: str, layer: int) -> tuple[np.ndarray, np.ndarray]:
        """Rows and columns of the cells to be marked in a layer: none where they are so many that marks hide the
        map."""
        cells = self.entries.get(kind, np.zeros((0, 3), int))
        _, rows, cols = cells[cells[:, 0] == layer].T
        spots = np.unique(rows * len(self.x) + cols)
        is_map = len(spots) <= (len(self.x) - 1) * (len(self.y) - 1) / 3
        rows, cols = np.divmod(spots if is_map else spots[:0], len(self.x))
        return rows, cols

    def levels(self) -> tuple[np.ndarray, np.ndarray]:
        """Tops and bottoms of layers."""
        assert self.top is not None and self.bottom is not None
        return self.top, self.bottom


def plan_of(delr: np.ndarray, delc: np.ndarray, unit: str, axis: str, **more) -> Plan:
    """The plan of a grid from its widths: row 1 lies in the north."""
    return Plan(
        np.concatenate([[0], np.cumsum(delr)]),
        np.sum(delc) - np.concatenate([[0], np.cumsum(delc)]),
        unit,
        axis,
        **more,
    )


@dataclass
class Album:
    """The folder of the pictures of a page, and whether each is also written as SVG."""

    folder: Path
    has_svg: bool = False

    @contextmanager
    def figure(self, name: str, width: float, height: float) -> Iterator[Figure]:
        """A figure of this size in inches in the style of heads-tools, which is saved at the end: as NAME.png."""
        with ALONE, matplotlib.style.context(STYLE):
            made = Figure(figsize=(width, height))
            yield made
            make_room(made)
            self.save(made, f"{name}.png", metadata={"Software": "heads-tools"}, pil_kwargs={"compress_level": 4})
            if self.has_svg:
                self.save(made, f"{name}.svg", metadata={"Date": None, "Creator": "heads-tools"})

    def save(self, figure: Figure, name: str, **options: Any) -> None:
        """Saves a figure under a name, whose ending says the form."""
        content = io.BytesIO()
        figure.savefig(content, format=name.rsplit(".", 1)[1], **options)
        write_whole(self.folder / name, content.getvalue())


def make_room(figure: Figure) -> None:
    """Moves the left side of axes inward where the numbers and the label beside them would leave the picture."""
    renderer = FigureCanvasAgg(figure).get_renderer()
    for axes in figure.axes:
        beside = axes.yaxis.get_tightbbox(renderer) if axes.axison and axes.get_aspect() == "auto" else None
        lack = EDGE - beside.x0 / figure.bbox.width if beside is not None else 0.0
        if lack > 0:
            place = axes.get_position()
            axes.set_position((place.x0 + lack, place.y0, place.width - lack, place.height))


def box(figure: Figure, left: float, bottom: float, width: float, height: float) -> Axes:
    """Axes at a place in inches from the lower left corner."""
    across, up = figure.get_size_inches()
    return figure.add_axes((left / across, bottom / up, width / across, height / up))


def head_scale(values: np.ndarray) -> Normalize:
    """The colour scale from the least to the greatest value."""
    here = values[np.isfinite(values)]
    low, high = (float(here.min()), float(here.max())) if here.size else (0.0, 1.0)
    room = 0 if high > low else max(abs(low), 1e-9) * 1e-3
    return Normalize(low - room, high + room)


def width_scale(values: np.ndarray, least: float = 0.0) -> Normalize:
    """The colour scale of values that aren't negative: powers of ten where those above `least` differ a hundredfold."""
    here = values[np.isfinite(values) & (values > 0)]
    if not here.size:
        return Normalize(0, 1)
    low, high = max(float(here.min()), least), float(here.max())
    return LogNorm(low, high) if low > 0 and high > 100 * low else Normalize(0, high)


def legend_below(axes: Axes, handles: list, drop: float, columns: int = 4) -> None:
    """A legend under the axes, `drop` inches below them."""
    if handles:
        height = axes.get_position().height * axes.figure.get_size_inches()[1]
        axes.legend(
            handles=handles,
            loc="upper left",
            bbox_to_anchor=(0, -drop / height),
            ncol=columns,
            borderaxespad=0,
            handletextpad=0.5,
        )


def mark(kind: str) -> Line2D:
    """The entry of a legend for wells, rivers and so on."""
    shape, colour, name = MARKS[kind]
    return Line2D([], [], ls="", marker=shape, color=colour, mec="white", mew=0.4, ms=6, label=name)


def patch(colour: str, name: str) -> Patch:
    return Patch(facecolor=colour, edgecolor="0.5", linewidth=0.5, label=name)
