"""Exports of a listing of what a plan's wells do: each format has the heads without them, those with them and the
drawdown, with both bounds. The listings of plan_listing/ are those of an independent program."""
import csv
import importlib.util
import shutil
import sqlite3
from fractions import Fraction

import numpy as np
import pytest
from conftest import TOOLS
from plan_heads import numbers

import heads_tools
from heads_tools import Problem, read_model, read_plan_listing

pytestmark = [pytest.mark.program, pytest.mark.plans]
DECKS = TOOLS / "tests" / "plan_listing"
PREFIXES = {"BASE": "base_", "PLAN": "plan_", "DRAWDOWN": "drawdown_"}
STEPS = [(1, 1), (1, 2), (2, 1)]


def needs(*names):
    lacking = [n for n in names if importlib.util.find_spec(n) is None]
    return pytest.mark.skipif(bool(lacking), reason=f"without {' '.join(lacking)}")


@pytest.fixture
def decks(tmp_path):
    return shutil.copytree(DECKS, tmp_path / "decks")


@pytest.fixture
def exported(decks, tool, tmp_path):
    """A folder with a format of the listing of two decks."""

    def export(formats, *words):
        given = "--name", decks / "m.nam", "--plan", decks / "plan.wel", "--to", "h.nam", "--as", formats
        status, out, err = tool("export", decks / "two.txt", tmp_path / "out", *given, *words)
        assert status == 0 and out.startswith("heads check: CERTIFIED. The exact heads of both plans"), out + err
        return tmp_path / "out"

    return export


def demand_bounds(pair_at):
    """Each pair of doubles lies round that of the listing, and no double nearer does."""
    for word, prefix in PREFIXES.items():
        for (step, cell), texts in numbers(DECKS / "two.txt", word).items():
            lower, upper = pair_at(prefix, STEPS.index(step), cell)
            low, high = map(Fraction, texts)
            assert Fraction(float(lower)) <= low <= high <= Fraction(float(upper)), (word, step, cell)
            assert low - Fraction(float(lower)) < Fraction(1, 10**14) > Fraction(float(upper)) - high


def test_the_table_has_all_digits_and_says_where_the_water_comes_from(exported):
    folder = exported("csv")
    with (folder / "plan.csv").open() as file:
        rows = list(csv.DictReader(file))
    assert len(rows) == 15 and rows[0]["time"] == "12"
    for word, prefix in PREFIXES.items():
        due = numbers(DECKS / "two.txt", word)
        found = {}
        for row in rows:
            at = (int(row["period"]), int(row["step"])), tuple(int(row[name]) for name in ("layer", "row", "col"))
            found[at] = (row[f"{prefix}lower"], row[f"{prefix}upper"])
        assert found == due
    with (folder / "source.csv").open() as file:
        terms = {
            ((int(row["period"]), int(row["step"])), row["term"]): (row["more_lower"], row["more_upper"])
            for row in csv.DictReader(file)
        }
    assert terms == numbers(DECKS / "two.txt", "SOURCE")
    about = (folder / "source.csv.about").read_text()
    assert "CERTIFIED" in about and "model: m.nam --plan plan.wel --to h.nam" in about


@needs("xarray", "netCDF4")
@pytest.mark.parametrize("angle", [0, 30])
def test_netcdf_has_six_bounds(exported, angle):
    import netCDF4

    with netCDF4.Dataset(exported("nc", "--at", f"5,7,{angle},28992") / "plan.nc") as data:
        demand_bounds(lambda prefix, n, at: [data[prefix + side][n, 0, 0, at[2] - 1] for side in ("lower", "upper")])
        assert data["drawdown_lower"].long_name == "lower bound of the drawdown"
        assert "drawdown" in data.title and data.model == "m.nam --plan plan.wel --to h.nam"
        assert "lower" not in data.variables


@needs("rasterio")
def test_geotiff_has_a_band_for_each_bound(exported):
    import rasterio

    folder = exported("tif")
    names = ["plan_p1_s1", "plan_p1_s2", "plan_p2_s1"]
    assert sorted(file.stem for file in folder.glob("*.tif")) == names
    files = [rasterio.open(folder / f"{name}.tif") for name in names]
    assert files[0].descriptions == tuple(
        f"layer 1 {side} {what}"
        for what in ("head without the plan's wells", "head with the plan's wells", "drawdown")
        for side in ("lower", "upper")
    )
    band = lambda prefix: 2 * list(PREFIXES.values()).index(prefix) + 1
    demand_bounds(lambda prefix, n, at: [files[n].read(band(prefix) + side)[0, at[2] - 1] for side in (0, 1)])
    for file in files:
        file.close()


@needs("meshio")
def test_vtk_has_six_numbers_in_each_cell(exported):
    import meshio

    folder = exported("vtu")
    meshes = [meshio.read(folder / f"plan_p{p}_s{s}.vtu").cell_data for p, s in STEPS]
    demand_bounds(lambda prefix, n, at: [meshes[n][prefix + side][0][at[2] - 1] for side in ("lower", "upper")])
    assert (folder / "plan.pvd").read_text().count("<DataSet") == 3


def test_a_geopackage_has_polygons_with_six_bounds_of_each_step(exported):
    with sqlite3.connect(exported("gpkg") / "plan.gpkg") as base:
        rows = base.execute("SELECT * FROM plan_layer1")
        names = [column[0] for column in rows.description]
        cells = {row[names.index("col")]: dict(zip(names, row)) for row in rows}
    ends = ["_p1_s1", "_p1_s2", "_p2_s1"]
    demand_bounds(lambda prefix, n, at: [cells[at[2]][prefix + side + ends[n]] for side in ("lower", "upper")])
    last = cells[2]
    assert last["drawdown_upper"] == last["drawdown_upper_p2_s1"] and len(cells) == 5


def test_a_difference_of_0_has_no_sign():
    listing = read_plan_listing(DECKS / "two.txt").drawdown
    for side in (listing.lower(), listing.upper()):
        assert (side[:, 0, 0, 4] == 0).all() and not np.signbit(side[:, 0, 0, 4]).any()


def test_a_listing_in_memory_is_drawn_by_a_call(decks, tmp_path):
    words = {"name": decks / "m.nam", "plan": decks / "plan.wel", "to": "h.nam", "at": "pond,150,25"}
    answer = heads_tools.look(read_plan_listing(decks / "two.txt"), tmp_path / "look", **words)
    assert answer.is_good and any(line.startswith("pond: at the end of") for line in answer.lines)
    assert (tmp_path / "look" / "map.html").is_file()


@needs("pandas")
def test_frames_have_heads_drawdowns_and_sources():
    listing, model = read_plan_listing(DECKS / "two.txt"), read_model(DECKS / "m.nam")
    frame = heads_tools.heads_frame(listing, model).set_index(["period", "step", "col"])
    pair = lambda prefix, n, at: [frame.loc[(*STEPS[n], at[2])][prefix + side] for side in ("lower", "upper")]
    demand_bounds(pair)
    terms = heads_tools.terms_frame(listing, model)
    for (step, term), (low, high) in numbers(DECKS / "two.txt", "SOURCE").items():
        row = terms.loc[(*step, term)]
        assert Fraction(row.more_lower) <= Fraction(low) <= Fraction(high) <= Fraction(row.more_upper)


def test_a_listing_in_memory_is_exported_by_a_call(decks, tmp_path):
    listing = read_plan_listing(decks / "one.txt")
    words = {"plan": decks / "plan.wel", "formats": "csv"}
    answer = heads_tools.export(listing, tmp_path / "out", decks / "m.nam", **words)
    assert answer.is_good and "flows between zones weren't checked" in answer.lines[0]
    with (tmp_path / "out" / "plan.csv").open() as file:
        row = list(csv.DictReader(file))[1]
    assert (row["drawdown_lower"], row["drawdown_upper"]) == ("0.486695994", "0.486696000")
    verdict = heads_tools.check(decks / "m.nam", listing, plan=decks / "plan.wel", zones=decks / "m.zon")
    assert verdict.is_certified and verdict.is_zoned


def test_a_run_of_a_plan_is_a_call(decks):
    answer = heads_tools.run(decks / "m.nam", to=decks / "h.nam", plan="plan.wel", quiet=True)
    assert answer.listing.is_change
    known = read_plan_listing(DECKS / "two.txt").drawdown.steps[-1]
    found = read_plan_listing(answer.listing.path).drawdown.steps[-1]
    assert found.low.tolist() == known.low.tolist() and found.high.tolist() == known.high.tolist()


def test_a_part_of_a_plans_listing_stands_for_all_of_it(decks, tmp_path):
    """What a run returns is base less plan; other commands refuse it, since a change of heads has the other sign."""
    answer = heads_tools.run(decks / "m.nam", plan="plan.wel", quiet=True)
    words = {"plan": decks / "plan.wel", "formats": "csv"}
    assert heads_tools.export(answer.listing, tmp_path / "out", decks / "m.nam", **words).is_good
    assert "drawdown_lower" in (tmp_path / "out" / "plan.csv").read_text()
    assert heads_tools.check(decks / "m.nam", answer.listing, plan=decks / "plan.wel").is_certified
    for call in (heads_tools.compare, heads_tools.hds):
        with pytest.raises(Problem, match="lists what a plan does"):
            call(answer.listing, decks / "h.hds")
    answer.listing.path.write_text((decks / "two.txt").read_text())
    with pytest.raises(Problem, match="isn't the file any more"):
        heads_tools.export(answer.listing, tmp_path / "more", decks / "m.nam", **words)


@needs("xarray")
def test_a_part_alone_is_named_as_what_it_is():
    data = heads_tools.to_xarray(read_plan_listing(DECKS / "two.txt").drawdown)
    assert data.upper.long_name == "upper bound of the drawdown" and "change" not in data.title


@pytest.mark.parametrize(
    "listing, words, said",
    [
        ("two.txt", ["--plan", "plan.wel"], "name the second"),
        ("one.txt", [], "name the base deck and the wells"),
        ("one.txt", ["--plan", "plan.wel", "--minus", "one.txt"], "--minus and --base-name go with a listing of heads"),
        ("cut.txt", ["--plan", "plan.wel"], "isn't whole"),
        ("heads.txt", ["--plan", "plan.wel"], "--plan goes with a listing of what a plan does"),
    ],
)
def test_what_is_not_possible_is_refused_and_nothing_is_written(decks, tool, tmp_path, listing, words, said):
    (decks / "cut.txt").write_text((decks / "one.txt").read_text().partition("STEP 2")[0])
    heads_tools.run(decks / "m.nam", decks / "heads.txt", quiet=True)
    files = [decks / word if "." in word else word for word in words]
    status, out, err = tool("export", decks / listing, tmp_path / "out", "--name", decks / "m.nam", *files)
    assert status == 2 and said in err and not (tmp_path / "out").exists(), out + err


def test_an_export_of_a_listing_that_is_not_certified_says_so(decks, tool, tmp_path):
    text = (decks / "one.txt").read_text().replace("DRAWDOWN 1 1 2 0.486695994", "DRAWDOWN 1 1 2 0.486695999")
    (decks / "one.txt").write_text(text)
    words = "--name", decks / "m.nam", "--plan", decks / "plan.wel", "--as", "csv"
    status, out, err = tool("export", decks / "one.txt", tmp_path / "out", *words)
    said = "NOT CERTIFIED 1 1 DRAWDOWN 1 1 2 LOW. These numbers are no certified bounds"
    assert status == 8 and said in out, out + err
    assert "NOT CERTIFIED 1 1 DRAWDOWN" in (tmp_path / "out" / "plan.csv.about").read_text()


def test_other_commands_say_which_ones_take_it(decks):
    with pytest.raises(Problem, match="`look`, `observe`, `export` and `inside` take it"):
        heads_tools.compare(decks / "one.txt", decks / "one.txt")
