#!/usr/bin/env python3
"""Draws the pictures of the documents into this folder.

    docs/pictures/draw.py [NAME ..]      (river_valley, bounds, excess, zones)

It needs numpy, scipy and matplotlib, and for `river_valley`, `bounds` and `zones` the program: that of the
environment's HEADS, else dist/heads.
"""
from __future__ import annotations

import os
import re
import subprocess
import sys
import tempfile
from pathlib import Path

HERE = Path(__file__).resolve().parent
TOP = HERE.parents[1]
sys.path.insert(0, str(TOP / "tools"))
os.environ.setdefault("HEADS", str(TOP / "dist" / "heads"))

import numpy as np  # noqa: E402
from matplotlib.axes import Axes  # noqa: E402
from matplotlib.patches import FancyBboxPatch  # noqa: E402

from heads_tools.listing.listing import read_listing  # noqa: E402
from heads_tools.pages.look import Look  # noqa: E402
from heads_tools.deck.model import read_model  # noqa: E402
from heads_tools.pages.pictures import Album, box, plan_of  # noqa: E402
from heads_tools.pages.zones import ZoneMap, zone_map
from heads_tools.listing.zones import read_zones

ALBUM = Album(HERE)
BLUE, RED, GREY, GREEN = "#1f5fa8", "#b3261e", "0.45", "#2a7d4f"


def plain(axes: Axes) -> None:
    axes.set(xticks=[], yticks=[])
    for side in axes.spines.values():
        side.set_visible(False)


def views(row: int) -> tuple[dict[int, list[tuple[float, float]]], dict[int, tuple[float, float]]]:
    """Lower and upper heads by column along a row of the valley: of each view of a watched run, and listed."""
    words = [os.environ["HEADS"], "run", "m.nam", "--watch", "1", "--workers", "1"]
    done = subprocess.run(words, cwd=TOP / "examples" / "river_valley", capture_output=True, text=True, check=True)
    seen: dict[int, list[tuple[float, float]]] = {}
    for col, low, high in re.findall(rf"^HEAD 1 {row} (\d+) (\S+) (\S+)$", done.stderr, re.M):
        seen.setdefault(int(col), []).append((float(low), float(high)))
    found = re.findall(rf"^HEAD 1 {row} (\d+) (\S+) (\S+)$", done.stdout, re.M)
    return seen, {int(col): (float(low), float(high)) for col, low, high in found}


def bounds() -> None:
    """Two bounds closing in along row 8 of the valley: those of the first view of a watched run, and the listed."""
    seen, listed = views(8)
    columns = sorted(listed)
    first = np.array([seen[col][0] for col in columns])
    last = np.array([listed[col] for col in columns])
    with ALBUM.figure("bounds", 8.0, 4.2) as figure:
        axes = box(figure, 0.85, 1.0, 6.9, 2.8)
        for side in ("top", "right"):
            axes.spines[side].set_visible(False)
        axes.fill_between(columns, first[:, 0], first[:, 1], color=BLUE, alpha=0.1, lw=0)
        axes.plot(columns, first[:, 1], color=RED, label="upper heads, first view: at or below the ceiling")
        axes.plot(columns, first[:, 0], color=BLUE, label="lower heads, first view: at or above the floor")
        width = float((last[:, 1] - last[:, 0]).max())
        axes.plot(
            columns, last.mean(axis=1), color=GREEN, lw=2.2, label=f"the listed pairs: at most {width:.1e} m apart"
        )
        for col in columns[4::7]:
            for side, start in ((0, first[col - 1, 0]), (1, first[col - 1, 1])):
                style = {"arrowstyle": "-|>", "color": GREY, "lw": 0.9, "shrinkA": 3, "shrinkB": 5}
                axes.annotate("", (col, last[col - 1, side]), (col, start), arrowprops=style)
        axes.set_yscale("symlog", linthresh=20)
        axes.set(
            xlabel="column of row 8, river_valley",
            ylabel="head, m (beyond 20 in powers of ten)",
            xlim=(1, len(columns)),
        )
        axes.set_title("Every exact solution lies between the two heads, in each view and in the listing")
        axes.legend(loc="upper left", bbox_to_anchor=(0, -0.19), ncol=2, borderaxespad=0)


def excess() -> None:
    """Five cells in a row: the greatest excess of a lower head over a solution spreads, up to the anchor."""
    y, most = np.array([6.0, 6.6, 7.0, 7.3, 7.5]), 1.1
    l = y + np.array([-0.2, 0.5, most, 0.7, 0.45])
    with ALBUM.figure("excess", 8.0, 4.1) as figure:
        axes = box(figure, 0.3, 0.75, 7.4, 3.0)
        plain(axes)
        x = np.arange(5.0)
        for n in range(5):
            axes.add_patch(
                FancyBboxPatch(
                    (n - 0.42, 4.6),
                    0.84,
                    0.45,
                    boxstyle="square,pad=0",
                    fc="#e3f1e5" if n == 0 else "0.94",
                    ec="0.4",
                    lw=0.8,
                )
            )
            axes.text(n, 4.82, "anchor" if n == 0 else f"cell {n}", ha="center", va="center", fontsize=9)
        axes.plot(x, y, "o-", color=GREEN, label="y: a solution")
        axes.plot(x[1:], l[1:], "s-", color=BLUE, label="l: listed lower heads, as if above y")
        axes.plot(x[0], l[0], "s", color=BLUE)
        for n in range(1, 5):
            axes.annotate(
                "",
                (n, l[n]),
                (n, y[n]),
                arrowprops={"arrowstyle": "<->", "color": RED, "lw": 1.0, "shrinkA": 4, "shrinkB": 4},
            )
        axes.text(2.06, y[2] + most / 2, "greatest excess m", color=RED, va="center", fontsize=9.5)
        for n in (1, 3):
            axes.annotate(
                "",
                (n, l[2] + 0.32),
                (2, l[2] + 0.32),
                arrowprops={
                    "arrowstyle": "-|>",
                    "color": RED,
                    "lw": 1.4,
                    "connectionstyle": "arc3,rad=0.12" if n == 1 else "arc3,rad=-0.12",
                },
            )
        axes.text(
            2,
            l[2] + 0.75,
            "the balance at cell 2 forces both neighbours to have m, too",
            ha="center",
            fontsize=9.5,
            color=RED,
        )
        axes.annotate(
            "here it breaks: the anchor's head is known,\nso its flow would have to change",
            (0.25, y[0] + 0.15),
            (-0.35, 7.9),
            fontsize=9.5,
            color=GREEN,
            arrowprops={"arrowstyle": "-|>", "color": GREEN, "lw": 1.2},
        )
        axes.set(xlim=(-0.6, 4.6), ylim=(4.5, 9.1))
        axes.legend(loc="upper center", bbox_to_anchor=(0.5, 0.0), ncol=2)


def zones() -> None:
    """The zones of examples/river_valley with the flows between them."""
    source = TOP / "examples" / "river_valley"
    with tempfile.TemporaryDirectory() as folder:
        listed = subprocess.run(
            [os.environ["HEADS"], "run", "m.nam", "--zones", "m.zon"],
            cwd=source,
            capture_output=True,
            text=True,
            check=True,
        )
        (Path(folder) / "m.heads").write_text(listed.stdout)
        listing = read_listing(Path(folder) / "m.heads")
    model = read_model(source / "m.nam")
    entries = {kind: np.array([e.cell for e in model.deck.lists[kind][0] or []]) for kind in ("WEL", "RIV")}
    plan = plan_of(model.delr, model.delc, model.length, model.length, entries=entries)
    numbers = read_zones(source / "m.zon", source / "m.nam", model.shape)
    rate = f"{model.length}³ per {model.time}"
    title = "River valley: flows between three zones"
    step = listing.steps[0]
    shown = ZoneMap(1, numbers[0], model.ibound[0] != 0, step, listing.flow_places, rate, title)
    zone_map(ALBUM, "zones", plan, shown)


def valley() -> None:
    """The map of heads of examples/river_valley, as `heads-tools look` draws it."""
    source = TOP / "examples" / "river_valley"
    with tempfile.TemporaryDirectory() as folder:
        words = [os.environ["HEADS"], "run", "m.nam"]
        text = subprocess.run(words, cwd=source, capture_output=True, text=True, check=True).stdout
        (Path(folder) / "m.heads").write_text(text)
        it = Look(read_listing(Path(folder) / "m.heads"), HERE, read_model(source / "m.nam"))
    it.add_steps(it.listing.steps)
    it.draw()
    (HERE / "map_layer1_p1_s1.png").rename(HERE / "river_valley.png")


PICTURES = {"river_valley": valley, "bounds": bounds, "excess": excess, "zones": zones}

if __name__ == "__main__":
    unknown = [name for name in sys.argv[1:] if name not in PICTURES]
    if unknown:
        sys.exit(f"there is no picture {unknown[0]}; these are: {', '.join(PICTURES)}")
    for name in sys.argv[1:] or PICTURES:
        PICTURES[name]()
        print(HERE / f"{name}.png")
