"""GeoPackages: each cell of an unequal, turned grid is a polygon with its pair; contours lie at their heads."""
import csv
import math
import re
import sqlite3
import struct
import subprocess

import pytest

import heads_tools
from heads_tools import Place, read_model

pytestmark = pytest.mark.program
PLACE = Place(155000, 463000, 12, 28992)


@pytest.fixture
def pumped(example):
    nam = example("pumping_test")
    return nam, read_model(nam), heads_tools.run(nam, quiet=True).listing


@pytest.fixture
def exported(pumped, tool, tmp_path):
    nam, _, listing = pumped
    words = "--name", nam, "--at", "155000,463000,12,28992", "--as", "gpkg,csv"
    status, out, err = tool("export", listing.path, tmp_path / "out", *words)
    assert status == 0 and "heads.gpkg" in out, out + err
    return tmp_path / "out"


def geometry(blob):
    """The points of a line, or of a polygon of one ring, with the kind and the reference system."""
    magic, version, flags, system, *box = struct.unpack_from("<2sBBi4d", blob)
    assert (magic, version, flags) == (b"GP", 0, 3)
    order, kind = struct.unpack_from("<BI", blob, 40)
    at = 45 + 4 * (kind == 3)
    assert order == 1 and (kind != 3 or struct.unpack_from("<I", blob, 45) == (1,))
    (count,) = struct.unpack_from("<I", blob, at)
    flat = struct.unpack_from(f"<{2 * count}d", blob, at + 4)
    points = list(zip(flat[::2], flat[1::2]))
    assert len(blob) == at + 4 + 16 * count
    assert box == [f(p[n] for p in points) for n in (0, 1) for f in (min, max)]
    return kind, system, points


def turned(x, y):
    c, s = math.cos(math.radians(12)), math.sin(math.radians(12))
    return 155000 + c * x - s * y, 463000 + s * x + c * y


def test_each_cell_is_its_polygon_with_its_pair(pumped, exported):
    nam, model, listing = pumped
    lower, upper = listing.lower()[-1], listing.upper()[-1]
    east = [0, *model.delr.cumsum()]
    north = [model.delc.sum() - y for y in [0, *model.delc.cumsum()]]
    with sqlite3.connect(exported / "heads.gpkg") as base:
        rows = base.execute("SELECT geom, layer, row, col, lower, upper, lower_p1_s1 FROM heads_layer1").fetchall()
    assert len(rows) == 625
    for blob, k, i, j, low, high, first in rows:
        kind, system, points = geometry(blob)
        assert (kind, system, points[0]) == (3, 28992, points[-1])
        due = [turned(east[j - 1 + a], north[i - 1 + b]) for a, b in ((0, 0), (0, 1), (1, 1), (1, 0))]
        assert all(math.dist(p, q) < 1e-6 for p, q in zip(points, due))
        assert (low, high) == (lower[k - 1, i - 1, j - 1], upper[k - 1, i - 1, j - 1])
        assert first == listing.lower()[0][k - 1, i - 1, j - 1]


def test_contours_lie_between_the_heads_of_the_cells_beside_them(pumped, exported):
    nam, model, listing = pumped
    low, high = listing.lower()[-1].min(), listing.upper()[-1].max()
    with sqlite3.connect(exported / "heads.gpkg") as base:
        rows = base.execute("SELECT geom, bound, head FROM contours_layer1").fetchall()
    assert {bound for _, bound, _ in rows} == {"lower", "upper"}
    middle = turned(model.delr.sum() / 2, model.delc.sum() / 2)
    reach = {}
    for blob, bound, head in rows:
        kind, system, points = geometry(blob)
        assert (kind, system) == (2, 28992) and low <= head <= high
        reach.setdefault(bound, []).append((head, min(math.dist(p, middle) for p in points)))
    for found in reach.values():  # round the well heads rise outward
        assert [head for head, _ in sorted(found)] == [head for head, _ in sorted(found, key=lambda each: each[1])]


def test_what_it_was_made_of_stands_in_it(pumped, exported):
    with sqlite3.connect(exported / "heads.gpkg") as base:
        about = dict(base.execute("SELECT name, text FROM about"))
        tables = {name for name, in base.execute("SELECT table_name FROM gpkg_contents")}
        (wrong,) = base.execute("PRAGMA integrity_check").fetchone()
        assert base.execute("PRAGMA foreign_key_check").fetchall() == []
    assert "CERTIFIED" in about["verdict"] and about["listing_sha256"] == pumped[2].sha256
    assert tables == {"heads_layer1", "contours_layer1", "about"} and wrong == "ok"


def test_ogr_reads_it_where_it_is_here(exported):
    try:
        words = ["ogrinfo", "-so", exported / "heads.gpkg", "heads_layer1"]
        done = subprocess.run(words, capture_output=True, text=True)
    except FileNotFoundError:
        pytest.skip("without ogrinfo")
    assert "Geometry: Polygon" in done.stdout and "Feature Count: 625" in done.stdout, done.stdout + done.stderr
    assert not re.search("warning|error", done.stderr, re.I), done.stderr


def test_it_is_written_anew_and_over_nothing_else(pumped, exported, tool):
    nam, _, listing = pumped
    words = "export", listing.path, exported, "--name", nam, "--as", "gpkg"
    assert tool(*words)[0] == 0
    (exported / "heads.gpkg").write_bytes(b"SQLite format 3\0 of somebody else")
    status, _, err = tool(*words)
    assert status == 2 and "heads.gpkg isn't written over" in err, err


def test_heads_csv_has_one_form(pumped, exported, tool, tmp_path):
    """That of look, with all nine decimals; where the cells lie stands in cells.csv."""
    nam, model, listing = pumped
    assert tool("look", listing.path, tmp_path / "look", "--name", nam)[0] == 0
    assert (tmp_path / "look" / "heads.csv").read_bytes() == (exported / "heads.csv").read_bytes()
    rows = list(csv.DictReader((exported / "cells.csv").open()))
    assert len(rows) == 625 and [rows[0][name] for name in ("layer", "row", "col")] == ["1", "1", "1"]
    x, y = turned(model.delr[0] / 2, model.delc.sum() - model.delc[0] / 2)
    assert math.dist((float(rows[0]["x"]), float(rows[0]["y"])), (x, y)) < 1e-4
    assert (float(rows[0]["top"]), float(rows[0]["bottom"])) == (20, 0)
