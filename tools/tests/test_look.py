"""Pages of a listing: what they show, the flows into zones, and the difference of two listings."""
import re
import struct
from contextlib import contextmanager

import numpy as np
import pytest
from conftest import heads
from matplotlib.backends.backend_agg import FigureCanvasAgg
from matplotlib.text import Text

from heads_tools.planning.drawdown import difference
from heads_tools.listing.listing import Step, read_listing
from heads_tools.listing.zones import net_flows


def listed(nam, *options):
    path = nam.with_suffix(".heads")
    path.write_text(heads(["run", nam.name, *options], nam.parent).stdout)
    return path


def page(tool, tmp_path, *words):
    status, out, err = tool("look", *words)
    assert status == 0, out + err
    return (tmp_path / "look" / "index.html").read_text()


@pytest.mark.program
def test_a_page_has_the_models_title_contents_and_a_narrow_form(example, tool, tmp_path):
    nam = example("tide")
    text = page(tool, tmp_path, listed(nam), tmp_path / "look", "--name", nam)
    title = re.search("(?m)^# *(.+)", nam.read_text()).group(1).strip().replace("'", "&#39;")
    assert f"<h1>{title}</h1>" in text and '<meta name="viewport"' in text
    for room in ("Heads", "Cells over time", "Budget", "Files"):
        place = re.search(rf'<a href="#(\w+)">{room}</a>', text).group(1)
        assert f'<h2 id="{place}">{room}</h2>' in text
    assert (tmp_path / "look" / "hydrographs.png").is_file() and (tmp_path / "look" / "terms.png").is_file()


@pytest.mark.program
def test_layers_are_in_one_figure_and_folded_one_by_one(example, tool, tmp_path):
    nam = example("three_aquifers")
    text = page(tool, tmp_path, listed(nam), tmp_path / "look", "--name", nam, "--svg")
    assert "layers_p1_s1.png" in text and text.count("<details><summary>Layer") == 2
    for picture in re.findall(r'src="([^"]+)"', text):
        assert (tmp_path / "look" / picture).with_suffix(".svg").is_file()


def widths_of(folder):
    """The width in pixels of each PNG, from its header."""
    return {struct.unpack(">I", p.read_bytes()[16:20])[0] for p in folder.glob("*.png")}


@pytest.mark.program
def test_all_pictures_are_as_wide_as_can_be_read_on_a_phone(example, tool, tmp_path):
    """6.2 inches of 10-point letters: some 8 pixels high where a picture is 360 pixels wide."""
    for name, options in (("three_aquifers", ()), ("river_valley", ("--zones", "m.zon")), ("tide", ())):
        nam = example(name)
        more = ("--zones", nam.parent / "m.zon") if options else ()
        page(tool, tmp_path, listed(nam, *options), tmp_path / "look", "--name", nam, *more)
        assert widths_of(tmp_path / "look") == {756}
    nam = example("pumping_plans")
    for plan in ("two_wells", "no_well"):
        listed(nam.parent / f"{plan}.nam")
    words = (nam.parent / "two_wells.heads", nam.parent / "no_well.heads", tmp_path / "fall")
    assert tool("drawdown", *words)[0] == 0 and widths_of(tmp_path / "fall") == {756}


@pytest.mark.program
def test_the_discrepancy_is_written_without_an_exponent(example, tool, tmp_path):
    nam = example("river_valley")
    text = page(tool, tmp_path, listed(nam), tmp_path / "look", "--name", nam)
    assert re.search(r"lies from -0\.0+\d+ to 0\.0+\d+:", text)


def test_labels_of_contours_keep_apart():
    from matplotlib.figure import Figure

    from heads_tools.pages.maps import apart

    axes = Figure(figsize=(4, 4)).add_axes((0, 0, 1, 1))
    axes.set(xlim=(0, 4), ylim=(0, 4))
    labels = [axes.text(x, 1, "1.25") for x in (1, 1.1, 1.29, 1.31, 3)]
    apart(axes, labels)
    assert [label.get_visible() for label in labels] == [True, False, False, True, True]


def test_no_label_of_a_contour_lies_on_the_edge_of_a_map():
    from matplotlib.figure import Figure

    from heads_tools.pages.maps import apart

    axes = Figure(figsize=(4, 4)).add_axes((0, 0, 1, 1))
    axes.set(xlim=(0, 4), ylim=(0, 4))
    labels = [axes.text(*at, "10") for at in ((0.05, 1), (2, 3.95), (3.95, 2), (1, 0.05), (2, 2))]
    apart(axes, labels)
    assert [label.get_visible() for label in labels] == [False, False, False, False, True]


def test_long_numbers_beside_an_axis_stay_in_the_picture(tmp_path):
    from heads_tools.pages.curves import bands
    from heads_tools.pages.pictures import Album

    class Kept(Album):
        """An album that keeps its figure."""

        def figure(self, *words):
            return kept(super().figure(*words))

    made = []

    @contextmanager
    def kept(figure):
        with figure as one:
            made.append(one)
            yield one

    times, flows = np.array([0.0, 1.0]), np.array([-234567.0, 1.0])
    for name, factor in (("numbers", 1), ("power", 100)):
        curve = [("wells", factor * flows, factor * flows)]
        bands(Kept(tmp_path), name, times, curve, "time, d", "in less out, m³ per d", "Terms of the budget over time")
    for figure in made:
        (axes,), renderer = figure.axes, FigureCanvasAgg(figure).get_renderer()
        assert axes.yaxis.get_tightbbox(renderer).x0 > 0
        title = next(t for t in axes.get_children() if isinstance(t, Text) and t.get_text().startswith("Terms"))
        power = axes.yaxis.get_offset_text()
        assert not power.get_text() or power.get_window_extent(renderer).x0 > title.get_window_extent(renderer).x1
    assert power.get_text()


@pytest.mark.program
def test_zones_are_drawn_with_their_net_flows(example, tool, tmp_path):
    nam = example("river_valley")
    listing = listed(nam, "--zones", "m.zon")
    text = page(tool, tmp_path, listing, tmp_path / "look", "--name", nam, "--zones", nam.parent / "m.zon")
    assert "zones_layer1.png" in text and "net flow into it" in text
    status, out, err = tool("look", listing, tmp_path / "other", "--zones", nam.parent / "m.zon")
    assert status == 2 and "--name" in err


@pytest.mark.program
def test_the_difference_of_two_listings_has_bounds(example, tool, tmp_path):
    nam = example("river_valley")
    with_wells = read_listing(listed(nam))
    wel = nam.parent / "m.wel"
    plan = nam.with_suffix(".heads").rename(tmp_path / "plan.heads")
    wel.write_text(re.sub(r"(?m)-\d+(\.\d*)?$", "0", wel.read_text()))
    base = listed(nam)
    text = page(tool, tmp_path, plan, tmp_path / "look", "--minus", base)
    assert "the plan lowers the head at layer 1 row" in text and "minus_layer1.png" in text
    (change,) = difference(with_wells, read_listing(base))
    assert (change.low <= change.high).all() and (change.high < 0).any()


def test_net_flows_of_zones_are_sums_of_their_bounds():
    step = Step(1, 1, np.zeros(0), np.zeros(0), zones=[(1, 2, 5, 7), (1, 3, -2, -1), (2, 3, 0, 4)])
    assert net_flows(step) == {1: (-6, -3), 2: (1, 7), 3: (-2, 3)}
