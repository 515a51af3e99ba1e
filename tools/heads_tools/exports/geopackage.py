"""A listing as a GeoPackage, for grids of any widths: each cell a polygon, and contours of lower and upper heads as
lines. It is written by Python's own SQLite, as OGC 12-128r18 defines its tables and geometries."""
from __future__ import annotations

import sqlite3
import struct
from importlib import import_module
from pathlib import Path
from typing import Iterator

import numpy as np

from ..common.kept_files import demand_free
from ..common.text import Problem
from ..common.whole_files import draft_of
from ..deck.model import Model
from ..deck.places import Place
from ..listing.listing import Listing
from ..listing.plan_listing import PlanListing
from ..program.about import write_about
from ..program.verdict import Verdict, not_checked
from .exports import demand_unit, facts_for, middles
from .netcdf import wkt_of
from .parts import AnyListing, first_of, parts_of

APPLICATION, VERSION = 0x47504B47, 10300
LITTLE, LINE, POLYGON = 1, 2, 3
# Envelope of four doubles, numbers in little endian.
FLAGS = 0b00000011
UNKNOWN, NO_TIME = -1, "1970-01-01T00:00:00.000Z"
MOST_STEPS, CONTOURS = 50, 12
TABLES = """
CREATE TABLE gpkg_spatial_ref_sys (srs_name TEXT NOT NULL, srs_id INTEGER NOT NULL PRIMARY KEY,
 organization TEXT NOT NULL, organization_coordsys_id INTEGER NOT NULL, definition TEXT NOT NULL, description TEXT);
CREATE TABLE gpkg_contents (table_name TEXT NOT NULL PRIMARY KEY, data_type TEXT NOT NULL, identifier TEXT UNIQUE,
 description TEXT DEFAULT '', last_change DATETIME NOT NULL, min_x DOUBLE, min_y DOUBLE, max_x DOUBLE, max_y DOUBLE,
 srs_id INTEGER, CONSTRAINT fk_gc_r_srs_id FOREIGN KEY (srs_id) REFERENCES gpkg_spatial_ref_sys(srs_id));
CREATE TABLE gpkg_geometry_columns (table_name TEXT NOT NULL, column_name TEXT NOT NULL,
 geometry_type_name TEXT NOT NULL, srs_id INTEGER NOT NULL, z TINYINT NOT NULL, m TINYINT NOT NULL,
 CONSTRAINT pk_geom_cols PRIMARY KEY (table_name, column_name), CONSTRAINT uk_gc_table_name UNIQUE (table_name),
 CONSTRAINT fk_gc_tn FOREIGN KEY (table_name) REFERENCES gpkg_contents(table_name),
 CONSTRAINT fk_gc_srs FOREIGN KEY (srs_id) REFERENCES gpkg_spatial_ref_sys (srs_id));
INSERT INTO gpkg_spatial_ref_sys VALUES ('Undefined cartesian', -1, 'NONE', -1, 'undefined', NULL),
 ('Undefined geographic', 0, 'NONE', 0, 'undefined', NULL);
"""
WGS84 = (
    'GEOGCS["WGS 84",DATUM["WGS_1984",SPHEROID["WGS 84",6378137,298.257223563]],PRIMEM["Greenwich",0],'
    'UNIT["degree",0.0174532925199433],AUTHORITY["EPSG","4326"]]'
)


def to_geopackage(
    path: Path | str,
    listing: AnyListing,
    model: Model,
    place: Place = Place(),
    verdict: Verdict | None = None,
    is_last: bool = False,
) -> None:
    """For each layer a table of polygons with the heads of the last step, and of each step where they are 50 or fewer;
    a table of contours of lower and of upper heads; a table with what `heads check` said. Heads are rounded outward. A
    plan's listing has base_lower to drawdown_upper in their place."""
    path = Path(path)
    demand_unit(model, place)
    demand_free(path)
    with draft_of(path) as draft:
        try:
            with sqlite3.connect(draft) as base:
                Package(base, listing, model, place, is_last).write(facts_for(listing, verdict))
            base.close()
        except sqlite3.Error as error:
            raise Problem(f"{path} can't be written: {error}") from None
        draft.replace(path)
    write_about(path, verdict or not_checked(first_of(listing)))


class Package:
    """The tables of one GeoPackage."""

    def __init__(self, base: sqlite3.Connection, listing: AnyListing, model: Model, place: Place, is_last: bool):
        self.base, self.listing, self.model, self.place = base, first_of(listing), model, place
        self.parts, count = parts_of(listing), len(self.listing.steps)
        self.steps = [] if is_last or count == 1 or count > MOST_STEPS else list(range(count))
        self.name, self.level = ("plan", "value") if isinstance(listing, PlanListing) else ("heads", "head")
        self.system = place.epsg or UNKNOWN
        x = np.concatenate([[0], np.cumsum(model.delr)])
        y = model.delc.sum() - np.concatenate([[0], np.cumsum(model.delc)])
        self.x, self.y = place.world(*np.meshgrid(x, y))

    def write(self, facts: dict[str, str]) -> None:
        self.base.executescript(TABLES)
        self.base.execute(f"PRAGMA application_id = {APPLICATION}")
        self.base.execute(f"PRAGMA user_version = {VERSION}")
        systems = [("WGS 84", 4326, "EPSG", 4326, WGS84)]
        if self.place.epsg and self.place.epsg != 4326:
            code = self.place.epsg
            systems.append((f"EPSG:{code}", code, "EPSG", code, wkt_of(code) or "undefined"))
        self.base.executemany("INSERT INTO gpkg_spatial_ref_sys VALUES (?, ?, ?, ?, ?, NULL)", systems)
        for k in range(1, self.model.shape[0] + 1):
            here = self.listing.cells[:, 0] == k
            if here.any():
                self.write_cells(k, np.flatnonzero(here))
                self.write_contours(k)
        self.base.execute("CREATE TABLE about (id INTEGER PRIMARY KEY, name TEXT, text TEXT)")
        self.base.executemany("INSERT INTO about (name, text) VALUES (?, ?)", facts.items())
        self.contents("about", "attributes", None)

    def contents(self, table: str, kind: str, system: int | None) -> None:
        ends = [f(v) for f, v in ((np.min, self.x), (np.min, self.y), (np.max, self.x), (np.max, self.y))]
        box: list[float | None] = [None] * 4 if system is None else [float(value) for value in ends]
        row = (table, kind, table, "heads-tools", NO_TIME, *box, system)
        self.base.execute("INSERT INTO gpkg_contents VALUES (?, ?, ?, ?, ?, ?, ?, ?, ?, ?)", row)

    def features(self, table: str, kind: str, columns: list[str], rows: Iterator[tuple]) -> None:
        """A table of features with a geometry and columns."""
        names = ", ".join(columns)
        self.base.execute(f"CREATE TABLE {table} (fid INTEGER PRIMARY KEY, geom BLOB, {names})")
        self.contents(table, "features", self.system)
        row = (table, "geom", kind, self.system)
        self.base.execute("INSERT INTO gpkg_geometry_columns VALUES (?, ?, ?, ?, 0, 0)", row)
        bare = ", ".join(name.split(" ")[0] for name in columns)
        marks = ", ".join("?" * (len(columns) + 1))
        self.base.executemany(f"INSERT INTO {table} (geom, {bare}) VALUES ({marks})", rows)

    def write_cells(self, layer: int, at: np.ndarray) -> None:
        """The cells of a layer as polygons, each with its pair."""
        k, i, j = (self.listing.cells[at] - 1).T
        corners = [(0, 0), (1, 0), (1, 1), (0, 1), (0, 0)]
        x, y = (np.stack([grid[i + down, j + right] for down, right in corners], 1) for grid in (self.x, self.y))
        columns = ["layer INTEGER", "row INTEGER", "col INTEGER", "top DOUBLE", "bottom DOUBLE"]
        bottom = self.model.bottom[k, i, j]
        values = [*(self.listing.cells[at].T), bottom + self.model.thick[k, i, j], bottom]
        for n in [-1, *self.steps]:
            step = self.listing.steps[n]
            end = f"_p{step.period}_s{step.step}" if n >= 0 else ""
            for part in self.parts:
                columns += [f"{part.prefix}{side}{end} DOUBLE" for side in ("lower", "upper")]
                values += self.pair(part.listing, n, at)
        lists = [value.tolist() for value in values]
        geometries = (blob(self.system, POLYGON, *points) for points in zip(x, y))
        self.features(f"{self.name}_layer{layer}", "POLYGON", columns, zip(geometries, *lists))

    def sides(self, listing: Listing, n: int) -> tuple[np.ndarray, np.ndarray]:
        """Lower and upper heads of a step, shape (layers, rows, cols), rounded outward."""
        one = Listing(listing.path, listing.digits, listing.unit, [listing.steps[n]], listing.cells)
        return one.lower(self.model.shape)[0], one.upper(self.model.shape)[0]

    def pair(self, listing: Listing, n: int, at: np.ndarray) -> list[np.ndarray]:
        return [side[tuple((self.listing.cells[at] - 1).T)] for side in self.sides(listing, n)]

    def write_contours(self, layer: int) -> None:
        """Contours of the last step's lower and upper heads: lines through the middles of cells."""
        x, y = middles(self.model)
        rows: list[tuple] = []
        for part in self.parts:
            for name, heads in zip(("lower", "upper"), self.sides(part.listing, -1)):
                for level, line in contours(x, y, heads[layer - 1]):
                    wx, wy = self.place.world(line[:, 0], line[:, 1])
                    rows.append((blob(self.system, LINE, wx, wy), layer, part.prefix + name, level))
        columns = ["layer INTEGER", "bound TEXT", f"{self.level} DOUBLE"]
        self.features(f"contours_layer{layer}", "LINESTRING", columns, iter(rows))


def contours(x: np.ndarray, y: np.ndarray, grid: np.ndarray) -> Iterator[tuple[float, np.ndarray]]:
    """The contour lines of a layer, at round heads."""
    known = grid[np.isfinite(grid)]
    if min(grid.shape) < 2 or not known.size or float(np.ptp(known)) == 0:
        return
    # matplotlib is loaded here, since `import heads_tools` takes half a second longer with it.
    figure, ticker = (import_module(f"matplotlib.{name}") for name in ("figure", "ticker"))
    levels = ticker.MaxNLocator(CONTOURS).tick_values(float(known.min()), float(known.max()))
    axes = figure.Figure().add_subplot()
    found = axes.contour(x, y, np.ma.masked_invalid(grid), levels=levels)
    for level, lines in zip(found.levels.tolist(), found.allsegs):
        yield from ((level, line) for line in lines if len(line) > 1)


def blob(system: int, kind: int, x: np.ndarray, y: np.ndarray) -> bytes:
    """A geometry: GeoPackage's header with its envelope, and a line or a polygon of one ring as well-known binary."""
    ends = float(x.min()), float(x.max()), float(y.min()), float(y.max())
    head = struct.pack("<2sBBi4d", b"GP", 0, FLAGS, system, *ends)
    rings = struct.pack("<BI", LITTLE, kind) + (struct.pack("<I", 1) if kind == POLYGON else b"")
    return head + rings + struct.pack("<I", len(x)) + np.column_stack([x, y]).astype("<f8").tobytes()
