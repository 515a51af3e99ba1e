"""Listings in other programs' forms, calls in Python, heads at points, and the call of MODFLOW-2005."""
import csv
import hashlib
import importlib.util
import platform
import re
import subprocess
import sys
import zipfile
from fractions import Fraction

import numpy as np
import pytest
from conftest import TOOLS, TOP

import heads_tools
from heads_tools import Place, Problem, read_model
from heads_tools.deck.places import place_of
from heads_tools.exports.exports import outward

pytestmark = pytest.mark.program


def needs(*names):
    lacking = [n for n in names if importlib.util.find_spec(n) is None]
    return pytest.mark.skipif(bool(lacking), reason=f"without {' '.join(lacking)}")


@pytest.fixture
def tide(example):
    nam = example("tide")
    answer = heads_tools.run(nam)
    assert answer.is_good and repr(answer) == "<run: status 0, The run ended well (END).>"
    return nam, read_model(nam), answer.listing


@pytest.fixture
def valley(example):
    nam = example("river_valley")
    return nam, read_model(nam), heads_tools.run(nam).listing


def test_a_listing_is_shown_in_one_line(tide):
    assert repr(tide[2]) == "<m.heads: 48 steps of 60 cells, 12 digits, ends with END>"
    assert repr(tide[2].steps[0]) == "<period 1 step 1: 60 cells>"


def test_calls_keep_their_names_beside_the_modules(tide, tmp_path):
    import heads_tools.commands.inside
    import heads_tools.commands.plain  # noqa: F401

    assert heads_tools.inside(tide[0]).is_good and heads_tools.plain(tide[0], tmp_path / "plain").is_good
    answer = heads_tools.certify(tide[0], write_middle(tide, tmp_path), digits=9)
    assert answer.is_good and answer.listing.is_whole
    assert heads_tools.compare(tide[2], tmp_path / "m.hds", csv=tmp_path / "off.csv").is_good
    rows = list(csv.DictReader((tmp_path / "off.csv").open()))
    assert len(rows) == 48 and all(r["outside"] == "0" and r["given"] == "60" for r in rows)
    with pytest.raises(TypeError, match="nothing"):
        heads_tools.inside(tide[0], nothing=1)
    with pytest.raises(Problem):
        heads_tools.run(tmp_path / "none.nam")


def write_middle(deck, tmp_path):
    heads_tools.write_heads(tmp_path / "m.hds", deck[2], "middle", deck[1].shape, deck[1].times)
    return tmp_path / "m.hds"


@pytest.mark.parametrize("units, places", [(1, 1), (-1, 1), (5, 1), (123456789012345678901, 21), (-7, 9), (0, 9)])
def test_flows_are_rounded_outward(units, places):
    assert Fraction(outward(units, places, -1)) <= Fraction(units, 10**places) <= Fraction(outward(units, places, 1))


@needs("pandas")
def test_frames_hold_the_listing(valley):
    nam, model, listing = valley
    frame = heads_tools.heads_frame(listing, model, Place(1000, 2000, 90))
    assert len(frame) == len(listing.cells) and (frame.lower <= frame.upper).all()
    first = frame.iloc[0]
    assert (first.x, first.y) == pytest.approx((1000 - model.delc.sum() + model.delc[0] / 2, 2000 + model.delr[0] / 2))
    terms = heads_tools.terms_frame(listing, model)
    flows = listing.steps[0].terms["RIVER LEAKAGE"]
    row = terms.loc[1, 1, "RIVER LEAKAGE"]
    assert Fraction(row.in_lower) <= Fraction(flows[0], 10**21) and Fraction(flows[3], 10**21) <= Fraction(
        row.out_upper
    )


@needs("xarray", "netCDF4")
@pytest.mark.parametrize("angle", [0, 30])
def test_netcdf_comes_back(angle, tide, tmp_path):
    import xarray

    nam, model, listing = tide
    heads_tools.to_netcdf(tmp_path / "m.nc", listing, model, Place(5, 7, angle, 28992))
    with xarray.open_dataset(tmp_path / "m.nc") as data:
        assert np.array_equal(data.lower.values, listing.lower(model.shape), equal_nan=True)
        assert data.attrs["crs"] == "EPSG:28992" and data.lower.shape[0] == 48
        assert data.x.ndim == (2 if angle else 1)


@needs("rasterio")
def test_geotiff_has_each_head_at_its_place(valley, tmp_path):
    import rasterio

    nam, model, listing = valley
    place = Place(100, 200, 30, 28992)
    heads_tools.to_geotiff(tmp_path / "m.tif", listing, model, place)
    with rasterio.open(tmp_path / "m.tif") as file:
        assert file.count == 2 and np.array_equal(file.read(1), listing.lower(model.shape)[-1, 0], equal_nan=True)
        middle = place.world(np.array(model.delr[0] * 16.5), np.array(model.delc.sum() - model.delc[0] * 7.5))
        assert list(file.sample([middle]))[0][0] == listing.lower()[-1, 0, 7, 16]
    model.delr[0] *= 2
    with pytest.raises(Problem, match="DELR differs"):
        heads_tools.to_geotiff(tmp_path / "m.tif", listing, model)


@needs("meshio")
def test_vtk_has_a_hexahedron_for_each_cell(valley, tmp_path):
    import meshio

    nam, model, listing = valley
    heads_tools.to_vtk(tmp_path / "m.vtu", listing, model, Place(100, 200))
    mesh = meshio.read(tmp_path / "m.vtu")
    assert (
        len(mesh.cells[0].data) == len(listing.cells)
        and mesh.cell_data["lower"][0][0] == listing.lower()[-1].ravel()[0]
    )
    # Corners that cells share stand once: the valley is one layer of 20 by 30 cells, flat above and below.
    assert len(mesh.points) == 2 * 21 * 31
    x, y, z = mesh.points.T
    assert (x.min(), x.max(), y.min()) == (100, 100 + model.delr.sum(), 200) and z.max() == model.top.max()


@needs("rasterio", "meshio")
def test_every_step_is_exported(tide, tool, tmp_path):
    """The tide has periods 1 to 12 of 4 steps: names in order of time, each file with its own heads and time."""
    import meshio
    import rasterio

    nam, model, listing = tide
    words = "export", listing.path, tmp_path / "out", "--name", nam, "--at", "5,7,30,28992", "--as", "tif,vtu"
    status, out, err = tool(*words)
    steps = [f"heads_p{p:02}_s{s}" for p in range(1, 13) for s in range(1, 5)]
    assert status == 0 and "48 steps" in out, out + err
    assert sorted(f.stem for f in (tmp_path / "out").glob("*.tif")) == steps
    assert sorted(f.stem for f in (tmp_path / "out").glob("*.vtu")) == steps
    with rasterio.open(tmp_path / "out" / "heads_p02_s3.tif") as file:
        assert np.array_equal(file.read(2), listing.upper(model.shape)[6, 0], equal_nan=True)
        assert file.tags()["period"] == "2" and float(file.tags()["time"]) == model.times[2, 3][1]
        assert file.crs.to_epsg() == 28992
    mesh = meshio.read(tmp_path / "out" / "heads_p02_s3.vtu")
    assert np.array_equal(mesh.cell_data["lower"][0], listing.lower()[6].ravel())
    series = (tmp_path / "out" / "heads.pvd").read_text()
    assert series.count("<DataSet") == 48 and f'timestep="{model.times[2, 3][1]!r}" file="heads_p02_s3.vtu"' in series
    assert tool(*words, "--last")[0] == 0 and (tmp_path / "out" / "heads.tif").is_file()


@needs("xarray", "netCDF4", "rasterio", "meshio", "pandas")
def test_the_change_of_two_runs_is_exported_with_bounds(example, tool, tmp_path):
    import xarray

    nam = example("pumping_plans")
    plan, base = (heads_tools.run(nam.parent / name).listing for name in ("two_wells.nam", "no_well.nam"))
    words = "export", plan.path, tmp_path, "--name", nam.parent / "two_wells.nam", "--minus", base.path
    status, out, err = tool(*words)
    assert status == 0 and out.count("written: ") == 5 and "--base-name" in out, out + err
    with xarray.open_dataset(tmp_path / "change.nc") as data:
        assert data.lower.attrs["comment"].startswith("Not checked")
    status, out, err = tool(*words, "--base-name", nam.parent / "no_well.nam")
    assert status == 0 and out.startswith("heads check: CERTIFIED, both listings."), out + err
    k, i, j = (plan.cells - 1).T
    with xarray.open_dataset(tmp_path / "change.nc") as data:
        lower, upper = (data[name].values[0, k, i, j] for name in ("lower", "upper"))
        assert "The change of each exact head lies between" in data.lower.attrs["comment"]
    for n in range(len(plan.cells)):
        low = Fraction(int(plan.steps[0].low[n] - base.steps[0].high[n]), 10**9)
        high = Fraction(int(plan.steps[0].high[n] - base.steps[0].low[n]), 10**9)
        assert Fraction(lower[n]) <= low <= high <= Fraction(upper[n])
        assert float(upper[n] - lower[n]) == pytest.approx(float(high - low), abs=1e-14)


def test_export_says_what_it_could_not_write(valley, tool, tmp_path):
    nam, model, listing = valley
    status, out, err = tool("export", listing.path, tmp_path / "out", "--name", nam, "--at", "100,200,15,28992")
    assert status == 0 and out.count("written: ") == 5
    assert tool("export", listing.path, tmp_path / "out", "--name", nam, "--at", "here")[0] == 2
    assert tool("export", listing.path, tmp_path / "out", "--name", nam, "--as", "shp")[0] == 2


def test_places_are_read_and_turned():
    assert place_of("1,2,3,4") == Place(1, 2, 3, 4) and place_of("1,2") == Place(1, 2)
    turned = Place(10, 20, 37)
    assert turned.grid(*turned.world(3.0, 4.0)) == pytest.approx((3, 4))


def test_points_by_coordinates_have_their_cells_pairs(valley, tool, tmp_path):
    nam, model, listing = valley
    x, y = Place(100, 200, 30).world(model.delr[0] * 16.5, model.delc.sum() - model.delc[0] * 7.5)
    (tmp_path / "points.csv").write_text(f"name,x,y,layer,measured\nwell,{x},{y},1,7.2\n")
    status, out, err = tool("observe", listing.path, tmp_path / "points.csv", "--name", nam, "--at", "100,200,30")
    assert status == 0 and out.split("\n")[1].startswith("well,1,8,17,1,7.138119734,7.138119992,7.2,0.0618"), out + err
    (tmp_path / "points.csv").write_text("name,x,y\nfar,1e9,0\n")
    status, out, err = tool("observe", listing.path, tmp_path / "points.csv", "--name", nam)
    assert status == 2 and "lies outside the grid" in err


def test_hob_files_are_read(tide, tool, tmp_path):
    nam, model, listing = tide
    period = model.deck.periods[0]
    length = float(period.perlen)
    (tmp_path / "m.hob").write_text(
        f"# heads\n3 0 0 0 -888\n1.0\nA 1 1 20 1 {length} 0 0 5.5\nB 1 1 20 -2 0 0 0 0\n1\nB1 1 {length} 0 0\n"
        + f"B2 1 {length / 2} 1.25 0\n"
    )
    status, out, err = tool("observe", listing.path, tmp_path / "m.hob", "--name", nam)
    rows = list(csv.DictReader(out.splitlines()))
    assert status == 0 and [r["name"] for r in rows] == ["A", "B1", "B2"], out + err
    at = max(n for n, s in enumerate(listing.steps) if s.period == 1)
    assert (
        rows[0]["lower"] == f"{listing.steps[at].low[listing.at((1, 1, 20))] / 1e9:.9f}"
        and rows[0]["measured"] == "5.5"
    )


def test_a_python_without_setuptools_is_named(tmp_path):
    lacking = tmp_path / "python"
    lacking.write_text("#!/bin/sh\nexit 1\n")
    lacking.chmod(0o755)
    env = {"PATH": "/usr/bin:/bin", "PYTHON": str(lacking)}
    done = subprocess.run([sys.executable, TOOLS / "wheel", tmp_path], capture_output=True, text=True, env=env)
    assert done.returncode == 2 and f"{lacking} lacks setuptools or wheel" in done.stderr


def test_the_wheels_carry_the_program(tmp_path):
    if (
        subprocess.run([sys.executable, "-c", "import setuptools, wheel"], capture_output=True).returncode
        or not (TOP / "dist" / "heads").is_file()
    ):
        pytest.skip("without setuptools and wheel, or without dist/heads")
    done = subprocess.run(
        [TOOLS / "wheel", tmp_path],
        capture_output=True,
        text=True,
        env={"PATH": "/usr/bin:/bin", "PYTHON": sys.executable},
    )
    assert done.returncode == 0, done.stderr
    package = TOOLS / "heads_tools"
    modules = {str(p.relative_to(TOOLS)) for p in package.rglob("*") if p.is_file() and "__pycache__" not in p.parts}
    record = (TOP / "dist" / "heads.txt").read_text()
    for wheel in tmp_path.glob("*.whl"):
        with zipfile.ZipFile(wheel) as file:
            names = file.namelist()
            assert "heads_tools/bin/recheck.py" in names and modules <= set(names)
            program = next((n for n in names if re.fullmatch("heads_tools/bin/heads(.exe)?", n)), None)
            commands = file.read(next(n for n in names if n.endswith("/entry_points.txt"))).decode()
            has_command, is_pure = "heads = heads_tools.program.program:main" in commands, "none-any" in wheel.name
            assert has_command == (program is not None) == (not is_pure)
            if program:
                assert hashlib.sha256(file.read(program)).hexdigest() in record
                assert file.read("heads_tools/bin/heads.txt").decode() == record
                assert file.getinfo(program).external_attr >> 16 & 0o111
    assert len(list(tmp_path.glob("*x86_64.whl"))) == 1


def test_an_installed_wheel_runs_the_program(tmp_path):
    """The wheel for this platform in an environment of its own, that has what it needs from the system."""
    if (TOP / "dist" / "heads").is_file() is False or platform.machine() != "x86_64" or sys.platform != "linux":
        pytest.skip("without dist/heads, or on another platform")
    needed = "import setuptools, wheel, venv, ensurepip"
    if subprocess.run([sys.executable, "-c", needed], capture_output=True).returncode:
        pytest.skip("without setuptools, wheel and venv")
    subprocess.run([TOOLS / "wheel", tmp_path], check=True, env={"PATH": "/usr/bin:/bin", "PYTHON": sys.executable})
    made = tmp_path / "env"
    subprocess.run([sys.executable, "-m", "venv", "--system-site-packages", made], check=True)
    wheel = next(tmp_path.glob("*x86_64.whl"))
    subprocess.run([made / "bin" / "pip", "install", "-q", "--no-deps", "--no-index", wheel], check=True)
    model = TOP / "examples" / "three_cells"
    nam = next(model.glob("*.nam")).name
    done = subprocess.run([made / "bin" / "heads", "run", nam], cwd=model, capture_output=True)
    due = subprocess.run([TOP / "dist" / "heads", "run", nam], cwd=model, capture_output=True)
    assert (done.returncode, done.stdout) == (due.returncode, due.stdout)
    said = subprocess.run([made / "bin" / "heads-tools", "version"], capture_output=True, text=True)
    assert said.returncode == 0 and "its bytes are those recorded" in said.stdout, said.stdout + said.stderr