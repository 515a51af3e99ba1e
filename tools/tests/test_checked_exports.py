"""Files for other programs say what was checked; a listing of another model, or one that was cut, is refused. NetCDF
is read by GDAL at its place, and its times are dates."""
import math
import importlib.util
import shutil
import subprocess
from pathlib import Path

import numpy as np
import pytest
from conftest import TOP

import heads_tools
from heads_tools import Place, Problem, read_listing, read_model
from heads_tools.deck.dates import date_of, start_of
from heads_tools.deck.places import named_place
from heads_tools.common.text import sha256

pytestmark = pytest.mark.program
EXACT = "very exact solution"
NEEDED = ("xarray", "netCDF4", "rasterio", "meshio", "pandas")


def all_here():
    if any(importlib.util.find_spec(name) is None for name in NEEDED):
        pytest.skip("a package is missing")


@pytest.fixture
def valley(tmp_path):
    folder = tmp_path / "valley"
    shutil.copytree(TOP / "examples" / "river_valley", folder, ignore=shutil.ignore_patterns("*.heads*", "look"))
    heads_tools.run(folder / "m.nam")
    return folder / "m.nam"


def told_in(folder):
    """What each exported file says of itself, as its own reader finds it, or in the file beside it."""
    import netCDF4
    import rasterio

    with netCDF4.Dataset(folder / "heads.nc") as file:
        nc = {name: file.getncattr(name) for name in file.ncattrs()} | {"comment": file["lower"].comment}
    with rasterio.open(folder / "heads.tif") as file:
        tif = file.tags()
    lines = [line.partition(": ") for line in (folder / "heads.csv.about").read_text().split("\n")]
    about = {name: text for name, _, text in lines}
    vtu = (folder / "heads.vtu").read_text().split("-->")[0]
    return {"nc": nc, "tif": tif, "csv": about}, vtu


def test_each_file_has_the_verdict_and_what_it_was_made_of(valley, tool, tmp_path):
    all_here()
    status, out, err = tool("export", valley.with_suffix(".heads"), tmp_path / "out", "--name", valley)
    assert status == 0 and out.startswith("heads check: CERTIFIED."), out + err
    told, vtu = told_in(tmp_path / "out")
    listing, program = sha256(valley.with_suffix(".heads")), sha256(TOP / "dist" / "heads")
    for kind, facts in told.items():
        assert facts["verdict"].startswith("heads check: CERTIFIED. E" + EXACT), kind
        assert facts["listing_sha256"] == listing and facts["model"] == "m.nam" and facts["listing"] == "m.heads"
        assert len(facts["program_sha256"]) == len(program)
    assert f"listing_sha256: {listing}" in vtu and EXACT in vtu
    sums = (tmp_path / "out" / "heads.vtu.about").read_text()
    assert f"{sha256(tmp_path / 'out' / 'heads.vtu')}  heads.vtu\n" in sums


def test_a_listing_that_is_not_certified_is_never_said_to_hold(valley, tool, tmp_path):
    all_here()
    path = valley.with_suffix(".heads")
    line = next(l for l in path.read_text().split("\n") if l.startswith("HEAD 1 8 17 "))
    path.write_text(path.read_text().replace(line, "HEAD 1 8 17 1.000000000 1.000000001"))
    status, out, err = tool("export", path, tmp_path / "out", "--name", valley)
    assert status == 8 and "NOT CERTIFIED" in out, out + err
    told, vtu = told_in(tmp_path / "out")
    for facts in told.values():
        assert "NOT CERTIFIED" in facts["verdict"] and EXACT not in str(facts)
    assert "NOT CERTIFIED" in vtu and EXACT not in vtu
    status, out, err = tool("hds", path, tmp_path / "m.hds", "--name", valley)
    assert status == 8 and "NOT CERTIFIED" in (tmp_path / "m.hds.about").read_text()


def test_what_was_not_checked_says_so(valley, tool, tmp_path):
    all_here()
    listing, model = read_listing(valley.with_suffix(".heads")), read_model(valley)
    heads_tools.to_netcdf(tmp_path / "heads.nc", listing, model)
    heads_tools.to_geotiff(tmp_path / "heads.tif", listing, model)
    heads_tools.to_vtk(tmp_path / "heads.vtu", listing, model)
    (tmp_path / "heads.csv.about").write_text("")
    told, vtu = told_in(tmp_path)
    for facts in (told["nc"], told["tif"]):
        assert facts["verdict"].startswith("Not checked (no check was asked for)") and EXACT not in str(facts)
        assert facts["program_sha256"] == "none: not checked"
    assert "Not checked" in vtu and EXACT not in vtu
    assert tool("hds", valley.with_suffix(".heads"), tmp_path / "m.hds")[0] == 0
    about = (tmp_path / "m.hds.about").read_text()
    assert "verdict: Not checked (no model was named" in about and f"{sha256(tmp_path / 'm.hds')}  m.hds\n" in about


def test_compare_says_what_was_checked(valley, tool, tmp_path):
    path = valley.with_suffix(".heads")
    assert tool("hds", path, tmp_path / "m.hds")[0] == 0
    status, out, err = tool("compare", path, tmp_path / "m.hds", "--csv", tmp_path / "off.csv", "--name", valley)
    assert status == 0 and "verdict: heads check: CERTIFIED." in (tmp_path / "off.csv.about").read_text()
    assert tool("compare", path, tmp_path / "m.hds", "--csv", tmp_path / "off.csv")[0] == 0
    assert "verdict: Not checked" in (tmp_path / "off.csv.about").read_text()


def without_cell(text):
    return "".join(l for l in text.splitlines(keepends=True) if not l.startswith("HEAD 1 3 4 "))


WRONG = {
    "another model": (lambda text: None, "and the model's grid is|has a cell with flow at"),
    "a cell is missing": (without_cell, "the model has a cell with flow at layer 1 row 3 column 4, the listing has"),
    "another step": (lambda text: text.replace("STEP 1 1", "STEP 1 2"), "its time step 1 is period 1 step 2, and the"),
    "a step more": (lambda text: text.replace("END", text[text.index("STEP") :]), "time step 2 is period 1 step"),
    "cut": (lambda text: text[: text.index("\nOUT ") + 1], "isn't whole: it ends with"),
    "ended early": (lambda text: text.replace("END", "NOBOUND 24 Word 1 2 1 1 1"), "ends with `NOBOUND 24 Word 1 2"),
}


@pytest.mark.parametrize("name", WRONG)
def test_a_listing_of_something_else_is_refused(name, valley, example, tool, tmp_path):
    import re

    change, why = WRONG[name]
    listing = valley.with_suffix(".heads")
    heads_tools.hds(listing, tmp_path / "m.hds")
    if name == "another model":
        listing = heads_tools.run(example("three_cells")).listing.path
    else:
        listing.write_text(change(listing.read_text()))
    for words in (
        ["export", listing, tmp_path / "out", "--name", valley],
        ["hds", listing, tmp_path / "new.hds", "--name", valley],
        ["compare", listing, tmp_path / "m.hds", "--name", valley],
    ):
        status, out, err = tool(*words)
        assert status == 2 and re.search(why, err) and len(err.strip().split("\n")) == 1, out + err
    assert not (tmp_path / "out").exists() and not (tmp_path / "new.hds").exists()
    if name in ("cut", "ended early"):
        assert tool("hds", listing, tmp_path / "new.hds")[0] == 2


def test_heads_of_another_grid_are_not_compared(valley, example, tool, tmp_path):
    other = heads_tools.run(example("tide")).listing
    heads_tools.write_heads(tmp_path / "tide.hds", other)
    status, out, err = tool("compare", valley.with_suffix(".heads"), tmp_path / "tide.hds", "--name", valley)
    assert status == 2 and "is of another grid" in err


def test_a_check_that_was_asked_for_and_could_not_be_made_is_no_success(valley, tool, tmp_path, monkeypatch):
    path = valley.with_suffix(".heads")
    monkeypatch.setenv("HEADS", str(tmp_path / "nowhere"))
    status, out, err = tool("look", path, tmp_path / "look", "--name", valley)
    assert status == 2 and "Not checked (HEADS names" in out


def gdal(path):
    """What gdalinfo says of the lower heads."""
    if not shutil.which("gdalinfo"):
        pytest.skip("without gdalinfo")
    return subprocess.run(["gdalinfo", f"NETCDF:{path}:lower"], capture_output=True, text=True).stdout


def test_gdal_finds_the_grid_of_netcdf_on_the_map(valley, tool, tmp_path):
    """The valley is 2000 m high and has cells of 100 m: its upper left corner lies at y 463000 + 2000."""
    all_here()
    words = "export", valley.with_suffix(".heads"), tmp_path, "--name", valley, "--as", "nc"
    assert tool(*words, "--at", "155000,463000,0,28992", "--start", "2024-03-01")[0] == 0
    said = gdal(tmp_path / "heads.nc")
    assert "Origin = (155000.000000000000000,465000.000000000000000)" in said
    assert "Pixel Size = (100.000000000000000,-100.000000000000000)" in said and '"EPSG",28992' in said
    assert "time#units=days since 2024-03-01" in said
    assert tool(*words, "--at", "155000,463000,90,28992")[0] == 0
    said = " ".join(gdal(tmp_path / "heads.nc").split())
    numbers = said.split("GeoTransform = ")[1].split(" Metadata")[0].split(",")
    x, along, _, y, _, down = (float(n) for part in numbers for n in part.split())
    assert (x, y) == pytest.approx((155000 - 2000, 463000)) and (along, down) == pytest.approx((0, 0), abs=1e-9)


def test_netcdf_has_axes_dates_and_the_grid_itself(valley, tmp_path):
    all_here()
    import xarray

    listing, model = read_listing(valley.with_suffix(".heads")), read_model(valley)
    heads_tools.to_netcdf(tmp_path / "m.nc", listing, model, Place(0, 0, 0, 28992), start="2024-01-01")
    with xarray.open_dataset(tmp_path / "m.nc") as data:
        assert data.attrs["Conventions"] == "CF-1.8" and data.lower.attrs["grid_mapping"] == "spatial_ref"
        assert "RD New" in data.spatial_ref.attrs["crs_wkt"]
        assert data.x.attrs["axis"] == "X" and data.y.attrs["standard_name"] == "projection_y_coordinate"
        days = model.times[1, 1][1]
        assert data.time.values[0] == np.datetime64("2024-01-01") + np.timedelta64(round(days * 86400), "s")
        assert np.array_equal(data.bottom.values, model.bottom) and np.array_equal(data.ibound.values, model.ibound)
        assert np.array_equal(data.top.values, model.bottom + model.thick)
        assert data.lower.encoding["zlib"] and "_FillValue" not in data.x.encoding
    heads_tools.to_netcdf(tmp_path / "m.nc", listing, model)
    with xarray.open_dataset(tmp_path / "m.nc") as data:
        assert data.time.attrs["units"] == "d" and data.time.values[0] == days and "spatial_ref" not in data


HEADER = "#xll:155000.0; yll:463000.0; rotation:12.0; units:meters; lenuni:2; crs:EPSG:28992; start_datetime:{}\n"


@pytest.mark.parametrize("date, begin", [("2024-02-01", "2024-02-01"), ("12/31/2023", "2023-12-31")])
def test_the_place_and_the_date_of_the_name_file_are_taken(date, begin, valley, tool, tmp_path):
    all_here()
    valley.write_text(HEADER.format(date) + valley.read_text())
    place, _ = named_place(read_model(valley).deck)
    assert place == Place(155000, 463000, 12, 28992)
    status, out, err = tool("export", valley.with_suffix(".heads"), tmp_path, "--name", valley, "--as", "nc")
    assert status == 0 and "the grid's place is that of the comments of m.nam" in out, out + err
    assert f"days since {begin}" in gdal(tmp_path / "heads.nc")


CORNERS = """\
# Discretization File created on 5/9/2019 by ModelMuse version 4.1.
# Upper left corner: ({}, {})
# Lower left corner: (1000, 2000)
# Upper right corner: ({}, {})
# Lower right corner: ({}, {})
"""


@pytest.mark.parametrize("turned", [0, 30])
def test_the_corners_that_modelmuse_writes_are_taken(turned, valley):
    """River valley is 30 cells of 50 across and 20 along; corners of another grid are not its place."""
    model = read_model(valley)
    wide, tall = model.delr.sum(), model.delc.sum()
    c, s = math.cos(math.radians(turned)), math.sin(math.radians(turned))
    right, up = (1000 + c * wide, 2000 + s * wide), (1000 - s * tall, 2000 + c * tall)
    corners = CORNERS.format(*up, up[0] + c * wide, up[1] + s * wide, *right)
    dis = valley.with_name(model.deck.files["DIS"])
    text = dis.read_text()
    dis.write_text(corners + text)
    place, where = named_place(read_model(valley).deck)
    assert (place.x, place.y) == (1000, 2000) and abs(place.angle - turned) < 1e-9 and dis.name in where
    dis.write_text(corners.replace("(1000, 2000)", "(1100, 2000)") + text)
    assert named_place(read_model(valley).deck) == (None, "")


def test_dates_that_can_be_read_in_two_ways_and_the_one_that_stands_for_none_are_not_taken(valley):
    assert date_of("3/4/2024") is None and date_of("13/13/2024") is None
    assert date_of("4/4/2024").isoformat() == "2024-04-04"
    valley.write_text(HEADER.format("1-1-1970") + valley.read_text())
    assert start_of(None, valley) is None and start_of("1970-01-01", valley).isoformat() == "1970-01-01"
    with pytest.raises(Problem, match="a start date is YYYY-MM-DD"):
        start_of("soon", valley)


@pytest.mark.parametrize("code, why", [(2225, "US survey foot"), (4326, "has degrees"), (999999, "isn't known")])
def test_a_system_whose_lengths_are_not_the_models_is_refused(code, why, valley, tool, tmp_path):
    all_here()
    words = "export", valley.with_suffix(".heads"), tmp_path / "out", "--name", valley, "--at", f"0,0,0,{code}"
    for kind in ("nc", "tif"):
        status, out, err = tool(*words, "--as", kind)
        assert status == 2 and why in err and not (tmp_path / "out").exists(), err


def test_readme_example_of_a_verdict(valley, tmp_path):
    all_here()
    listing = read_listing(valley.with_suffix(".heads"))
    verdict = heads_tools.check(valley, listing)
    heads_tools.to_netcdf(tmp_path / "m.nc", listing, read_model(valley), verdict=verdict)
    assert Path(tmp_path / "m.nc").is_file() and verdict.is_certified
