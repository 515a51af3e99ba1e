"""A listing as a Dataset of xarray, and as NetCDF by the CF conventions: axes, the grid's place, times with units. GDAL
and QGIS see the place."""
from __future__ import annotations

import threading
from datetime import date
from pathlib import Path
from typing import TYPE_CHECKING, Any

import numpy as np

from ..common.text import LENGTHS, Problem
from ..common.whole_files import write_whole
from ..deck.dates import start_of
from ..deck.model import Model
from ..deck.places import Place
from ..listing.listing import Listing
from ..program.verdict import Verdict
from .exports import comment_of, demand_unit, facts_for, middles, package, system_of, time_of
from .parts import AnyListing, first_of, parts_of, title_of

if TYPE_CHECKING:
    import xarray

# The units of ITMUNI by their symbols, and in days.
UNITS = {1: ("s", 1 / 86400), 2: ("min", 1 / 1440), 3: ("h", 1 / 24), 4: ("d", 1.0), 5: ("year", 365.25)}
MAPPING = "spatial_ref"
# The library of NetCDF isn't made for threads.
ALONE = threading.Lock()


def to_xarray(
    listing: AnyListing,
    model: Model | None = None,
    place: Place = Place(),
    verdict: Verdict | None = None,
    start: str | None = None,
) -> xarray.Dataset:
    """Lower and upper heads by time (step without a model), layer, y and x; of a plan's listing base_lower to
    drawdown_upper. A grid that is turned has rows and columns, and the coordinates of their middles. `verdict`: what
    `heads check` said of the listing; `start`: the date on which the model starts, YYYY-MM-DD, that of the name file's
    comments where left out."""
    xarray, one = package("xarray"), first_of(listing)
    shape = model.shape if model else one.shape
    coords, axes = grid_coords(shape, model, place)
    first = "time" if model else "step"
    if model:
        coords["time"] = time_coord(one, model, start)
    coords["period"] = (first, [s.period for s in one.steps], {"long_name": "stress period"})
    coords["step_of_period"] = (first, [s.step for s in one.steps], {"long_name": "time step of the period"})
    about = {"units": LENGTHS.get(one.unit, "length units"), "comment": comment_of(listing, verdict)}
    demand_unit(model, place)
    mapping = mapping_of(model, place)
    about |= {"grid_mapping": MAPPING} if mapping else {}
    dims = (first, "layer", *axes)
    data: dict[str, Any] = {MAPPING: ((), 0, mapping)} if mapping else {}
    for part in parts_of(listing):
        for side, heads in (("lower", part.listing.lower(shape)), ("upper", part.listing.upper(shape))):
            data[part.prefix + side] = (dims, heads, about | {"long_name": f"{side} bound of the {part.what}"})
    data |= grid_data(model, dims[1:], about.get("grid_mapping")) if model else {}
    ends = one.end or "a part of a step"
    source = f"heads, {one.path.name}, {one.digits} digits, ends with {ends}"
    attrs = {"Conventions": "CF-1.8", "title": title_of(listing), "source": source}
    attrs |= facts_for(listing, verdict) | ({"crs": f"EPSG:{place.epsg}"} if place.epsg else {})
    return xarray.Dataset(data, coords, attrs)


def grid_coords(shape: tuple[int, int, int], model: Model | None, place: Place) -> tuple[dict, tuple[str, str]]:
    """The coordinates of layers, rows and columns, and the names of the two axes of a layer."""
    nlay, nrow, ncol = shape
    layers = {"long_name": "layer of the model, from the top", "units": "1", "axis": "Z", "positive": "down"}
    coords: dict[str, Any] = {"layer": ("layer", np.arange(1, nlay + 1), layers)}
    about = {
        name: {"units": model.length if model else "1", "standard_name": f"projection_{name}_coordinate"}
        for name in ("x", "y")
    }
    rows = {"row": np.arange(1, nrow + 1), "col": np.arange(1, ncol + 1)}
    if model is None:
        return coords | rows, ("row", "col")
    x, y = middles(model)
    if place.angle:
        wx, wy = place.world(*np.meshgrid(x, y))
        both = {"x": (("row", "col"), wx, about["x"]), "y": (("row", "col"), wy, about["y"])}
        return coords | rows | both, ("row", "col")
    alone = {
        "y": ("y", place.y + y, about["y"] | {"axis": "Y"}),
        "x": ("x", place.x + x, about["x"] | {"axis": "X"}),
    }
    return coords | alone, ("y", "x")


def time_coord(listing: Listing, model: Model, start: str | None) -> tuple:
    """The ends of the steps: days since the date on which the model starts, where it is known."""
    times = np.array([time_of(model, step) for step in listing.steps])
    about = {"standard_name": "time", "long_name": "end of the time step, since the start", "axis": "T"}
    unit, days = UNITS.get(model.deck.itmuni, ("1", 0.0))
    begin: date | None = start_of(start, model.deck.path)
    if begin and not days and start:
        raise Problem(f"{model.deck.path.name} has no time unit (ITMUNI of DIS is 0), so its times are no dates")
    if begin and days:
        return "time", times * days, about | {"units": f"days since {begin.isoformat()}", "calendar": "standard"}
    return "time", times, about | {"units": unit}


def mapping_of(model: Model | None, place: Place) -> dict[str, Any]:
    """The attributes of the grid mapping: the reference system, and the affine map of a grid of equal widths."""
    if model is None or not place.epsg:
        return {}
    out: dict[str, Any] = {"epsg_code": f"EPSG:{place.epsg}"}
    if wkt := wkt_of(place.epsg):
        out |= {"crs_wkt": wkt, "spatial_ref": wkt}
    if all(np.ptp(widths) <= 1e-9 * widths.max() for widths in (model.delr, model.delc)):
        out["GeoTransform"] = " ".join(f"{number!r}" for number in transform_of(model, place))
    return out


def transform_of(model: Model, place: Place) -> list[float]:
    """GDAL's six numbers: a corner, and how far a column and a row go on the map."""
    height = model.delc.sum()
    corners = [(0.0, height), (model.delr[0], height), (0.0, height - model.delc[0])]
    (x, y), (x1, y1), (x2, y2) = (place.world(np.array(a), np.array(b)) for a, b in corners)
    return [float(n) for n in (x, x1 - x, x2 - x, y, y1 - y, y2 - y)]


def wkt_of(epsg: int) -> str:
    """The text of a reference system; empty where the package that knows it isn't here."""
    system = system_of(epsg)
    return str(system.to_wkt()) if system else ""


def grid_data(model: Model, dims: tuple[str, ...], mapping: str | None) -> dict[str, Any]:
    """Tops and bottoms of the cells, and IBOUND."""
    more = {"grid_mapping": mapping} if mapping else {}
    return {
        "top": (dims, model.bottom + model.thick, {"units": model.length, "long_name": "top of the cell"} | more),
        "bottom": (dims, model.bottom, {"units": model.length, "long_name": "bottom of the cell"} | more),
        "ibound": (dims, model.ibound.astype(np.int32), {"units": "1", "long_name": "IBOUND of BAS6"} | more),
    }


def to_netcdf(
    path: Path | str,
    listing: AnyListing,
    model: Model | None = None,
    place: Place = Place(),
    verdict: Verdict | None = None,
    start: str | None = None,
) -> None:
    """Writes NetCDF. It is made in memory: on a full disk its library ends the whole process."""
    data = to_xarray(listing, model, place, verdict, start)
    netcdf, backends = package("netCDF4"), package("xarray").backends
    with ALONE:
        file = netcdf.Dataset("heads.nc", "w", memory=1 << 16)
        encoding: dict[str, dict] = {str(name): {"_FillValue": None} for name in data.coords}
        encoding |= {str(name): {"zlib": True, "complevel": 4} for name in data.data_vars if data[name].ndim}
        data.dump_to_store(backends.NetCDF4DataStore(file), encoding=encoding)
        content = bytes(file.close())
        bounds = [part.prefix + side for part in parts_of(listing) for side in ("lower", "upper")]
        write_whole(path, content, lambda new: look_at(new, data, bounds))


def look_at(path: Path, data: xarray.Dataset, bounds: list[str]) -> None:
    """Raises where a file doesn't have the heads of a Dataset."""
    with package("netCDF4").Dataset(str(path)) as file:
        file.set_auto_mask(False)
        for name in bounds:
            if not np.array_equal(file[name][:], data[name].values, equal_nan=True):
                raise ValueError(f"it has other values of {name}")
