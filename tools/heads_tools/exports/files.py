"""A listing as files of other programs: GeoTIFF and VTK of each step, NetCDF, CSV."""
from __future__ import annotations

import math
from pathlib import Path
from typing import Any, Callable
from xml.sax.saxutils import quoteattr

import numpy as np

from ..common.whole_files import draft_of, whole_file, write_whole
from ..deck.model import Model
from ..deck.places import Place
from ..listing.listing import Listing
from ..listing.plan_listing import PlanListing, write_plan_tables
from ..listing.tables import write_heads_table
from ..program.about import write_about
from ..program.verdict import NO_CHECK, Verdict, not_checked
from .exports import Unwritten, comment_of, demand_unit, facts_for, middles, package, time_of
from .geopackage import to_geopackage
from .netcdf import to_netcdf
from .parts import AnyListing, first_of, parts_of

FORMATS = ("nc", "tif", "gpkg", "vtu", "csv")
BY_STEPS = ("tif", "vtu")


def to_geotiff(
    path: Path | str,
    listing: AnyListing,
    model: Model,
    place: Place = Place(),
    at: int = -1,
    verdict: Verdict | None = None,
) -> None:
    """A picture element for each cell of a grid of equal widths; for each layer a band of lower and one of upper
    heads of a step, the last one where it isn't named; of a plan's listing also of the heads with the plan, and of the
    drawdown. `verdict`: what `heads check` said of the listing."""
    rasterio = package("rasterio")
    from rasterio.io import MemoryFile
    from rasterio.transform import Affine

    for name, widths in (("DELR", model.delr), ("DELC", model.delc)):
        if widths.max() - widths.min() > 1e-9 * widths.max():
            raise Unwritten(f"a GeoTIFF has cells of one width, and {name} differs: take GeoPackage, NetCDF or VTK")
    demand_unit(model, place)
    x, y = place.world(np.array(0.0), np.array(model.delc.sum()))
    corner, turn = Affine.translation(float(x), float(y)), Affine.rotation(place.angle)
    nlay, nrow, ncol = model.shape
    bands = [
        (f"layer {k + 1} {side} {part.short}", heads[k])
        for k in range(nlay)
        for part in parts_of(listing)
        for side, heads in zip(("lower", "upper"), step_of(part.listing, model, at))
    ]
    options: dict[str, Any] = {"width": ncol, "height": nrow, "count": len(bands), "dtype": "float64"}
    options |= {"transform": corner * turn * Affine.scale(model.delr[0], -model.delc[0]), "nodata": math.nan}
    options |= {"driver": "GTiff", "compress": "deflate", "crs": f"EPSG:{place.epsg}" if place.epsg else None}
    step = first_of(listing).steps[at]
    tags = facts_for(listing, verdict) | {"comment": comment_of(listing, verdict)}
    with MemoryFile() as memory:
        with memory.open(**options) as file:
            file.update_tags(period=step.period, step=step.step, time=time_of(model, step), **tags)
            for band, (name, values) in enumerate(bands, 1):
                file.write(values, band)
                file.set_band_description(band, name)
        content = bytes(memory.getbuffer())

    def look(new: Path) -> None:
        with rasterio.open(new) as file:
            if not np.array_equal(file.read(), np.array([values for _, values in bands]), equal_nan=True):
                raise ValueError("it has other values")

    write_whole(path, content, look)


def step_of(listing: Listing, model: Model, at: int) -> tuple[np.ndarray, np.ndarray]:
    """Lower and upper heads of one step, shape (layers, rows, cols), rounded outward."""
    one = Listing(listing.path, listing.digits, listing.unit, [listing.steps[at]], listing.cells)
    return one.lower(model.shape)[0], one.upper(model.shape)[0]


def to_vtk(
    path: Path | str,
    listing: AnyListing,
    model: Model,
    place: Place = Place(),
    at: int = -1,
    verdict: Verdict | None = None,
) -> None:
    """A hexahedron for each cell with flow, with its lower and upper head of a step, the last one where it isn't
    named; of a plan's listing base_lower to drawdown_upper. `verdict`: what `heads check` said of the listing, which
    stands in a comment of the file."""
    meshio, path, first = package("meshio"), Path(path), first_of(listing)
    k, i, j = (first.cells - 1).T
    points, cells = shared(corners(first, model, place))
    data = {
        part.prefix + side: [heads[k, i, j]]
        for part in parts_of(listing)
        for side, heads in zip(("lower", "upper"), step_of(part.listing, model, at))
    }
    mesh = meshio.Mesh(points, [("hexahedron", cells)], cell_data=data | {"layer": [k + 1]})
    facts = facts_for(listing, verdict)
    told = "".join(f"{name}: {text}\n" for name, text in facts.items()).replace("--", "- -")
    with draft_of(path) as draft:
        mesh.write(draft, file_format="vtu")
        head, body = draft.read_bytes().split(b"\n", 1)

    def look(new: Path) -> None:
        found = meshio.vtu.read(new).cell_data
        if any(not np.array_equal(found[name][0], values[0]) for name, values in data.items()):
            raise ValueError("it has other values")

    write_whole(path, head + f"\n<!--\n{told}-->\n".encode() + body, look)


def corners(listing: Listing, model: Model, place: Place) -> np.ndarray:
    """The eight corners of each cell with flow on the map, shape (8 * cells, 3), the lower four first."""
    x = np.concatenate([[0], np.cumsum(model.delr)])
    y = model.delc.sum() - np.concatenate([[0], np.cumsum(model.delc)])
    k, i, j = (listing.cells - 1).T
    bottom = model.bottom[k, i, j]
    levels = bottom, bottom + model.thick[k, i, j]
    found = [(*place.world(x[j + dx], y[i + dy]), z) for z in levels for dx, dy in ((0, 1), (1, 1), (1, 0), (0, 0))]
    return np.array([np.broadcast_arrays(*corner) for corner in found]).transpose(2, 0, 1).reshape(-1, 3)


def shared(points: np.ndarray) -> tuple[np.ndarray, np.ndarray]:
    """The points without repetition, and for each cell the numbers of its eight: cells that meet in a corner share it,
    so that ParaView can go from cells to points."""
    unique, at = np.unique(points, axis=0, return_inverse=True)
    return unique, at.reshape(-1, 8)


def write_series(path: Path, files: list[tuple[Path, float]]) -> None:
    """ParaView's list of the files of all steps with their times."""
    lines = [f'<DataSet timestep="{time!r}" file={quoteattr(file.name)}/>' for file, time in files]
    with whole_file(path) as out:
        head = '<?xml version="1.0"?>\n<!-- made by heads-tools -->\n'
        head += '<VTKFile type="Collection" version="0.1">\n<Collection>\n'
        out.write(head + "\n".join(lines) + "\n</Collection>\n</VTKFile>\n")


def name_of(stem: str, kind: str, listing: Listing, at: int, is_alone: bool) -> str:
    """The name of a step's file. Numbers have as many digits as the greatest, so that names are in order of time."""
    if is_alone:
        return f"{stem}.{kind}"
    p, s = (len(str(max(getattr(step, name) for step in listing.steps))) for name in ("period", "step"))
    return f"{stem}_p{listing.steps[at].period:0{p}}_s{listing.steps[at].step:0{s}}.{kind}"


def export(
    listing: AnyListing,
    folder: Path,
    model: Model,
    place: Place,
    formats: list[str],
    is_last: bool = False,
    verdict: Verdict | None = None,
    start: str | None = None,
) -> list[str]:
    """Writes the formats into a folder, GeoTIFF and VTK for each step or the last one alone; a sentence on each. A
    format whose package is missing, or that can't hold the grid, is an error only where it was asked for alone."""
    stem = "plan" if isinstance(listing, PlanListing) else "change" if listing.is_change else "heads"
    seen = verdict or not_checked(first_of(listing), NO_CHECK)
    whole: dict[str, Callable[[Path], None]] = {
        "nc": lambda path: to_netcdf(path, listing, model, place, seen, start),
        "gpkg": lambda path: to_geopackage(path, listing, model, place, seen, is_last),
        "csv": lambda path: to_csv(path, listing, model, place, seen),
    }
    said = []
    for kind in formats:
        try:
            if kind in BY_STEPS:
                said.append(export_steps(listing, folder, model, place, (stem, kind), is_last, seen))
            else:
                whole[kind](folder / f"{stem}.{kind}")
                said.append(f"written: {folder / stem}.{kind}")
        except Unwritten as error:
            if len(formats) == 1:
                raise
            said.append(f"not written: {folder / stem}.{kind}: {error}")
    return said


def to_csv(path: Path, listing: AnyListing, model: Model, place: Place, verdict: Verdict) -> None:
    """The table of all steps and cells that `look` writes, and cells.csv with the cells' middles on the map, tops and
    bottoms; of a plan's listing source.csv, too. The verdict is in a file beside each."""
    if isinstance(listing, PlanListing):
        sources = path.with_name("source.csv")
        write_plan_tables(listing, path, sources, model.times)
        write_about(sources, verdict)
    else:
        write_heads_table(path, listing, model.times)
    write_about(path, verdict)
    x, y = middles(model)
    all_cells = first_of(listing).cells
    k, i, j = (all_cells - 1).T
    bottom = model.bottom[k, i, j]
    columns = [*(all_cells.T), *place.world(x[j], y[i]), bottom + model.thick[k, i, j], bottom]
    cells = path.with_name("cells.csv")
    with whole_file(cells) as file:
        file.write("layer,row,col,x,y,top,bottom\n")
        file.writelines("%d,%d,%d,%.12g,%.12g,%.12g,%.12g\n" % row for row in zip(*columns))
    write_about(cells, verdict)


def export_steps(
    listing: AnyListing,
    folder: Path,
    model: Model,
    place: Place,
    name: tuple[str, str],
    is_last: bool,
    verdict: Verdict,
) -> str:
    """Writes the files of one kind, one for each step; a sentence on them."""
    stem, kind = name
    write, first = {"tif": to_geotiff, "vtu": to_vtk}[kind], first_of(listing)
    chosen = [len(first.steps) - 1] if is_last else list(range(len(first.steps)))
    files = []
    for at in chosen:
        path = folder / name_of(stem, kind, first, at, len(chosen) == 1)
        write(path, listing, model, place, at, verdict)
        files.append((path, time_of(model, first.steps[at])))
    if kind == "vtu":
        write_about(folder / f"{stem}.vtu", verdict, [path for path, _ in files])
    if len(files) == 1:
        return f"written: {files[0][0]}" + (" (the last step)" if len(first.steps) > 1 else "")
    series = folder / f"{stem}.pvd"
    if kind == "vtu":
        write_series(series, files)
    more = f", and {series.name} for ParaView, with their times" if kind == "vtu" else ""
    return f"written: {files[0][0]} to {files[-1][0].name}, {len(files)} steps{more}"
