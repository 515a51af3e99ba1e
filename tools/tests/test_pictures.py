"""Pictures: what a reader would take for wrong, or not see at all."""
from contextlib import contextmanager

import numpy as np
import pytest
from matplotlib.collections import LineCollection
from matplotlib.colors import Normalize, to_rgb
from matplotlib.figure import Figure

from heads_tools.pages import curves, maps
from heads_tools.pages.pictures import Album, plan_of

PLAN = plan_of(np.ones(31), np.ones(31), "m", "m")


class Kept(Album):
    """An album that keeps its figures."""

    made: list = []

    @contextmanager
    def figure(self, *words):
        with super().figure(*words) as one:
            self.made.append(one)
            yield one


@pytest.fixture
def album(tmp_path):
    it = Kept(tmp_path)
    it.made = []
    return it


def cone():
    """Heads that rise from the middle: each contour is a ring."""
    i, j = np.mgrid[-15:16, -15:16]
    return np.minimum(np.hypot(i, j), 14.0)


def test_a_contour_is_whole_below_its_number():
    axes = Figure(figsize=(5, 5)).add_axes((0, 0, 1, 1))
    axes.set(xlim=(0, 31), ylim=(0, 31))
    maps.contours(axes, PLAN, cone(), Normalize(0, 14))
    paths = [path.vertices for each in axes.collections for path in each.get_paths() if len(path.vertices)]
    assert len(paths) >= 4 and all(np.allclose(path[0], path[-1]) for path in paths)
    assert any(text.get_visible() for text in axes.texts)


def test_a_rate_holds_from_a_steps_begin_to_its_end(album):
    ends, rate = np.array([31.0, 59.0]), np.array([100.0, -50.0])
    lines = [("recharge", rate, rate)]
    curves.bands(album, "terms", np.concatenate([[0.0], ends]), lines, "d", "rate", "Terms", is_rate=True)
    line = album.made[0].axes[0].lines[-1]
    assert line.get_drawstyle() == "steps-pre"
    assert dict(zip(*line.get_data())) == {0.0: 100.0, 31.0: 100.0, 59.0: -50.0}


def test_curves_on_one_another_are_dashed_in_turn(album):
    x, y = np.arange(10.0), np.linspace(29, 28, 10)
    lines = [("east", y, y), ("well", y - 5, y - 5), ("west", y + 1e-7, y + 1e-7)]
    assert curves.places_on_one_line(lines) == [(0, 2), (0, 1), (1, 2)]
    curves.bands(album, "hydrographs", x, lines, "d", "m", "Hydrographs")
    styles = [line.get_linestyle() for line in album.made[0].axes[0].lines]
    assert styles[0] == styles[4] == "--" and styles[2] == "-"
    assert curves.dashes(0, 2)[0] != curves.dashes(1, 2)[0] and curves.dashes(0, 1) == "-"


def cut(heads, top, bottom, below=None):
    heads = np.array([heads])
    flat = lambda v: np.full(heads.shape, float(v))
    edges = np.arange(heads.shape[1] + 1.0)
    return curves.Cut("a section", edges, heads, flat(top), flat(bottom), [], None, below)


def shows(axes, low, high):
    return axes.get_ylim()[0] <= low and high <= axes.get_ylim()[1]


def test_a_section_shows_the_aquifer_however_far_the_heads_lie_from_it(album):
    curves.head_section(album, "far", PLAN, cut([30.0, 28.5, 30.0], 20, 0))
    curves.head_section(album, "near", PLAN, cut([12.0, 7.0, 14.0], 5, -10))
    far, near = album.made
    assert len(far.axes) == 2 and shows(far.axes[1], 0, 30) and not shows(far.axes[0], 0, 30)
    assert len(near.axes) == 1 and shows(near.axes[0], -10, 14)


def test_a_section_marks_the_tops_above_every_head(album):
    below = np.array([[False, True, False]])
    curves.head_section(album, "below", PLAN, cut([12.0, 7.0, 14.0], 10, 0, below))
    (red,) = [c for c in album.made[0].axes[0].collections if isinstance(c, LineCollection)]
    assert [segment.tolist() for segment in red.get_segments()] == [[[1.0, 10.0], [2.0, 10.0]]]


def test_a_section_of_layers_has_contours_from_edge_to_edge_with_numbers(album):
    heads = np.add.outer(np.zeros(3), np.arange(10.0))
    top, bottom = np.add.outer(-np.arange(3.0), np.zeros(10)), np.add.outer(-np.arange(1, 4.0), np.zeros(10))
    it = curves.Cut("layers", np.arange(11.0), heads, top, bottom, [])
    curves.cell_section(album, "layers", PLAN, it, Normalize(0, 9))
    axes = album.made[0].axes[0]
    lines = [p.vertices for c in axes.collections if c.get_array() is None for p in c.get_paths() if len(p.vertices)]
    spans = [np.ptp(vertices[:, 1]) for vertices in lines if len(vertices) > 1]
    assert spans and max(spans) == pytest.approx(3.0) and any(text.get_visible() for text in axes.texts)


def test_a_small_change_is_seen_beside_a_large_one():
    colours, norm = maps.change_scale(0.0, 5.3, maps.FALL_MAP)
    white, small, large, most = (np.array(to_rgb(colours(norm(v)))) for v in (0.0, 0.2, 1.0, 5.3))
    assert np.abs(white - 1).max() < 0.01
    assert np.abs(white - small).max() > 0.2 and np.abs(small - large).max() > 0.2 and np.abs(large - most).max() > 0.2
    assert norm.bounds.tolist() == [-0.05, 0.05, 0.1, 0.2, 0.5, 1, 2, 5, 10]
    assert np.allclose(norm.inverse(norm(np.array([0.3, 4.0]))), [0.3, 4.0])


@pytest.mark.parametrize(
    "least, most, ends", [(-0.3, 0.0, (-0.5, 0.002)), (-0.3, 4.0, (-5, 5)), (0.0, 0.0, (-1e-11, 1e-9))]
)
def test_a_side_without_a_change_is_left_out_of_the_scale(least, most, ends):
    bounds = maps.change_scale(least, most, maps.FALL_MAP)[1].bounds
    assert bounds[0] <= least and bounds[-1] >= most and (np.diff(bounds) > 0).all()
    assert (bounds[0], bounds[-1]) == pytest.approx(ends, rel=1)


def test_no_flow_has_another_colour_than_nought(album):
    values = np.array([[0.0, 1.0, np.nan], [2.0, 3.0, np.nan]])
    plan = plan_of(np.ones(3), np.ones(2), "m", "m")
    maps.error_map(album, "off", plan, values, 1, "off", "m", "not off")
    legend = album.made[0].axes[0].get_legend()
    names = [text.get_text() for text in legend.get_texts()]
    colours = [patch.get_facecolor() for patch in legend.get_patches()]
    assert names == ["not off", "no flow"] and colours[0] != colours[1]


def test_small_marks_have_no_white_edge():
    entries = {"RIV": np.array([[1, 1, n] for n in range(1, 301, 2)])}
    plan = plan_of(np.ones(300), np.ones(300), "m", "m", entries=entries)
    axes = Figure().add_axes((0, 0, 1, 1))
    maps.marks(axes, plan, 1, 4.5)
    assert axes.lines[0].get_markeredgewidth() == 0
