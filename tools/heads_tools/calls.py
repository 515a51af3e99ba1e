"""The commands as calls of Python: `run(nam, digits=9)` is `heads-tools run NAM --digits 9`. What a command can't do
raises Problem; a run that doesn't end well RunFailed, where it isn't asked not to (check=False)."""
from __future__ import annotations

from importlib import import_module
from pathlib import Path
from typing import TYPE_CHECKING, Any, Union

import numpy as np

from .answers import Answer, Cells, Span, arguments, call, cells_of, made, span_of
from .commands.shared import existing, guarded, listing_of, plan_in
from .deck.model import Model
from .listing.listing import Listing
from .listing.plan_listing import PlanListing
from .listing.spans import second_deck
from .planning.drawdown_weather import written_by
from .program.verdict import Verdict, check_listing

if TYPE_CHECKING:
    import pandas
    from matplotlib.axes import Axes

PathLike = Union[str, Path]
Listed = Union[str, Path, Listing]
AnyListed = Union[str, Path, Listing, PlanListing]


def run(
    nam: PathLike,
    out: PathLike | None = None,
    *,
    to: PathLike | None = None,
    plan: PathLike | None = None,
    digits: int | None = None,
    zones: PathLike | None = None,
    quick: bool = False,
    wide: bool = False,
    workers: int | None = None,
    rounds: int | None = None,
    watch: int | None = None,
    quiet: bool = False,
    force: bool = False,
    check: bool = True,
) -> Answer:
    """Runs the model; `.listing` is its listing. `to`: a second deck; `plan`: a file of WEL in the model's folder,
    `.listing` is then the part DRAWDOWN, base less plan, and read_plan_listing(answer.listing.path) has all of it;
    `quiet`: no progress on standard error. A run that doesn't end well raises RunFailed, where a step has no bounds
    NoBounds; with check=False it is an answer with its status, which has no listing: `success, lines = run(nam,
    check=False)`."""
    options = dict(out=out, to=to, plan=plan, digits=digits, zones=zones, quick=quick, wide=wide, workers=workers)
    return made("run", {"nam": nam}, options | dict(rounds=rounds, watch=watch, quiet=quiet, force=force), check)


def inside(
    nam: PathLike | PlanListing,
    *,
    most: int | None = None,
    heads: PathLike | None = None,
    name: PathLike | None = None,
    plan: PathLike | None = None,
    to: PathLike | None = None,
    plan_heads: PathLike | None = None,
    within: str | float | None = None,
    wide: bool = False,
) -> Answer:
    """Whether the model is inside, with all reasons; status 1 where it isn't. `heads`: those of a run, where a layer is
    convertible. Of a plan's listing, with its base deck `name` and its wells `plan`: whether the heads of two runs lie
    inside it, `heads` those without the wells and `plan_heads` those with them."""
    options = dict(most=most, heads=heads, name=name, plan=plan, to=to, plan_heads=plan_heads, within=within, wide=wide)
    return call("inside", {"nam": nam}, options)


def plain(nam: PathLike, folder: PathLike, *, dry: PathLike | None = None, as_confined: bool = False) -> Answer:
    """Writes the deck in the spelling that heads reads; of a MODFLOW 6 simulation the deck with its equations."""
    return call("plain", {"nam": nam, "folder": folder}, dict(dry=dry, as_confined=as_confined))


def between(
    nam: PathLike,
    folder: PathLike,
    *,
    wells: Span = None,
    recharge: Span = None,
    stage: Span = None,
    package: PathLike | list[PathLike] | None = None,
) -> Answer:
    """Writes two decks of one shape: factors of wells and recharge, shifts of stages, each (LOW, HIGH) or
    "LOW..HIGH"; packages of another plan."""
    spans = dict(wells=span_of(wells), recharge=span_of(recharge), stage=span_of(stage))
    return call("between", {"nam": nam, "folder": folder}, spans | dict(package=package))


def look(
    listing: AnyListed,
    folder: PathLike,
    *,
    name: PathLike | None = None,
    to: PathLike | None = None,
    plan: PathLike | None = None,
    cell: Cells = None,
    at: str | list[str] | None = None,
    given: PathLike | None = None,
    minus: Listed | None = None,
    zones: PathLike | None = None,
    wide: bool = False,
    page: bool = False,
    every: bool = False,
    svg: bool = False,
    force: bool = False,
) -> Answer:
    """Draws a listing: maps, sections, hydrographs, budget, a page; with page=True the interactive map alone. `name`:
    the model, whose check is called first; `plan`: the wells of a plan's listing; `at`: points of it, "NAME,X,Y"."""
    options = dict(name=name, to=to, plan=plan, cell=cells_of(cell), at=at, given=given, minus=minus, zones=zones)
    flags = dict(wide=wide, page=page, every=every, svg=svg, force=force)
    return call("look", {"listing": listing, "folder": folder}, options | flags)


def compare(
    listing: Listed,
    heads: PathLike,
    *,
    name: PathLike | None = None,
    map: PathLike | None = None,
    csv: PathLike | None = None,
    to: PathLike | None = None,
    zones: PathLike | None = None,
    wide: bool = False,
    force: bool = False,
) -> Answer:
    """How far given heads are off from every exact solution."""
    options = dict(name=name, map=map, csv=csv, to=to, zones=zones, wide=wide, force=force)
    return call("compare", {"listing": listing, "heads": heads}, options)


def certify(
    nam: PathLike,
    heads: PathLike,
    out: PathLike | None = None,
    *,
    digits: int | None = None,
    theta: float | None = None,
    zones: PathLike | None = None,
    convertible: bool = False,
    wide: bool = False,
    force: bool = False,
    check: bool = True,
) -> Answer:
    """Certified bounds round given heads; `.listing` is the certified listing. Where the check refuses them it raises
    RunFailed, or with check=False gives an answer with its status."""
    options = dict(out=out, digits=digits, theta=theta, zones=zones, convertible=convertible, wide=wide, force=force)
    return made("certify", {"nam": nam, "heads": heads}, options, check)


def drawdown(
    plan: Listed,
    base: Listed,
    folder: PathLike,
    *,
    name: PathLike | None = None,
    base_name: PathLike | None = None,
    cell: Cells = None,
    zones: PathLike | None = None,
    wide: bool = False,
    force: bool = False,
) -> Answer:
    """What a plan does: the differences of two listings."""
    options = dict(name=name, base_name=base_name, cell=cells_of(cell), zones=zones, wide=wide, force=force)
    return call("drawdown", {"plan": plan, "base": base, "folder": folder}, options)


def drawdown_whatever(
    base: PathLike,
    plan: PathLike,
    folder: PathLike,
    to: PathLike | None = None,
    *,
    any: bool = False,
    cell: Cells = None,
    at: str | list[str] | None = None,
    hk: Span = None,
    digits: int | None = None,
    quick: bool = False,
    wide: bool = False,
    force: bool = False,
) -> Answer:
    """What a plan does to a base deck in every weather between it and the deck `to`, in any weather (any=True), or in
    its own. `plan`: a file of WEL or a name file. `.listing` is that of base less plan."""
    options = dict(to=to, any=any, cell=cells_of(cell), at=at, hk=span_of(hk), digits=digits, quick=quick, wide=wide)
    answer = call("drawdown", {"plan": base, "base": plan, "folder": folder}, options | dict(force=force))
    answer.written = written_by(Path(folder), any)
    return answer


def plans(
    batch_list: PathLike, folder: PathLike, *, base: str | None = None, cell: Cells = None, force: bool = False
) -> Answer:
    """One page that compares all listings of a batch with one of them."""
    return call("plans", {"list": batch_list, "folder": folder}, dict(base=base, cell=cells_of(cell), force=force))


def batch(
    batch_list: PathLike,
    *,
    digits: int | None = None,
    jobs: int | None = None,
    quick: bool = False,
    wide: bool = False,
    slurm: bool = False,
    parallel: bool = False,
    write_only: bool = False,
    force: bool = False,
) -> Answer:
    """Runs the models of a list; the status is the first one that isn't 0, and the lines say how each ended."""
    options = dict(digits=digits, jobs=jobs, quick=quick, wide=wide, slurm=slurm, parallel=parallel)
    return call("batch", {"list": batch_list}, options | dict(write_only=write_only, force=force))


def exhibit(
    nam: PathLike,
    folder: PathLike,
    *,
    to: PathLike | None = None,
    plan: PathLike | None = None,
    digits: int | None = None,
    zones: PathLike | None = None,
    quick: bool = False,
    wide: bool = False,
) -> Answer:
    """All that a report or a court needs of one run, in one folder; `plan`: of what the wells of this file do."""
    options = dict(to=to, plan=plan, digits=digits, zones=zones, quick=quick, wide=wide)
    return call("exhibit", {"nam": nam, "folder": folder}, options)


def export(
    listing: AnyListed,
    folder: PathLike,
    name: PathLike,
    *,
    formats: str | None = None,
    at: str | tuple[float, ...] | None = None,
    last: bool = False,
    minus: Listed | None = None,
    base_name: PathLike | None = None,
    start: str | None = None,
    to: PathLike | None = None,
    plan: PathLike | None = None,
    wide: bool = False,
    force: bool = False,
    **more: Any,
) -> Answer:
    """Writes NetCDF, GeoTIFF, GeoPackage, VTK and CSV of a listing of the model `name`, after its check. `formats`: of
    nc, tif, gpkg, vtu, csv, with commas between; `plan`: the wells of a plan's listing."""
    options = dict(name=name, at=at, last=last, minus=minus, base_name=base_name, start=start, to=to, plan=plan)
    options |= {"as": formats or more.pop("as", None), "wide": wide, "force": force} | more
    return call("export", {"listing": listing, "folder": folder}, options)


def hds(
    listing: Listed,
    out: PathLike,
    *,
    name: PathLike | None = None,
    lower: bool = False,
    upper: bool = False,
    middle: bool = False,
    single: bool = False,
    to: PathLike | None = None,
    wide: bool = False,
    force: bool = False,
) -> Answer:
    """Writes a head file of a listing: middle heads where no side is named."""
    options = dict(name=name, lower=lower, upper=upper, middle=middle, single=single, to=to, wide=wide, force=force)
    return call("hds", {"listing": listing, "out": out}, options)


def observe(
    listing: AnyListed,
    points: PathLike,
    name: PathLike,
    *,
    to: PathLike | None = None,
    plan: PathLike | None = None,
    part: str | None = None,
    at: str | tuple[float, ...] | None = None,
    between: bool = False,
    out: PathLike | None = None,
    start: str | None = None,
    picture: PathLike | None = None,
    pest: PathLike | None = None,
    zones: PathLike | None = None,
    wide: bool = False,
    quiet: bool = False,
    force: bool = False,
) -> Answer:
    """Heads at the points of a table or a HOB file; the lines of the answer are the table. `plan`: the wells of a
    plan's listing; `part`: of BASE, PLAN, DRAWDOWN, with commas between, what was measured first. `quiet`: nothing on
    standard error."""
    options = dict(name=name, to=to, plan=plan, part=part, at=at, between=between, out=out, start=start)
    more = dict(picture=picture, pest=pest, zones=zones, wide=wide, quiet=quiet, force=force)
    return call("observe", {"listing": listing, "points": points}, options | more)


def zonebudget(
    listing: Listed, zones: PathLike, name: PathLike, *, out: PathLike | None = None, wide: bool = False
) -> Answer:
    """The water budget of each zone; the lines of the answer are the table after the verdict."""
    return call("zonebudget", {"listing": listing, "zones": zones}, dict(name=name, out=out, wide=wide))


def capture(
    nam: PathLike,
    folder: PathLike,
    *,
    rate: str | float,
    to: PathLike | None = None,
    cell: Cells = None,
    layer: int | None = None,
    every: int | None = None,
    reaches: PathLike | None = None,
    digits: int | None = None,
    quick: bool = False,
    wide: bool = False,
    force: bool = False,
) -> Answer:
    """Which share of a well's water each term of the budget gives, for a well that takes `rate` at each of some cells."""
    options = dict(rate=rate, to=to, cell=cells_of(cell), layer=layer, every=every, reaches=reaches, digits=digits)
    return call("capture", {"nam": nam, "folder": folder}, options | dict(quick=quick, wide=wide, force=force))


def template(nam: PathLike, folder: PathLike) -> Answer:
    """The deck with templates of its arrays in the form of PEST."""
    return call("template", {"nam": nam, "folder": folder}, {})


def ensemble(
    nam: PathLike,
    values: PathLike,
    folder: PathLike,
    tpl: PathLike | list[PathLike],
    *,
    cell: Cells = None,
    points: PathLike | None = None,
    at: str | tuple[float, ...] | None = None,
    start: str | None = None,
    digits: int | None = None,
    jobs: int | None = None,
    quick: bool = False,
    wide: bool = False,
    force: bool = False,
) -> Answer:
    """Samples of a deck from templates and a table: least and most head at chosen places, which are no bounds."""
    options = dict(tpl=tpl, cell=cells_of(cell), points=points, at=at, start=start, digits=digits, jobs=jobs)
    given = {"nam": nam, "values": values, "folder": folder}
    return call("ensemble", given, options | dict(quick=quick, wide=wide, force=force))


def check(
    nam: PathLike,
    listing: AnyListed,
    *,
    to: PathLike | None = None,
    plan: PathLike | None = None,
    zones: PathLike | None = None,
    wide: bool = False,
) -> Verdict:
    """What `heads check` says of a listing; `plan`: the wells of a plan's listing. It goes with the listing into
    to_netcdf and the like."""
    args, rest = arguments("check", {"nam": nam, "listing": listing}, dict(to=to, plan=plan, zones=zones, wide=wide))
    path = existing(args.nam)
    file, wells = (existing(each) if each else None for each in (args.zones, args.plan))
    with guarded(args, rest):
        given = plan_in(args.listing).drawdown if wells else listing_of(args.listing)
        return check_listing(path, given, file, second_deck(path, args.to), args.wide, wells)


def plot(
    listing: Listing,
    model: Model | None = None,
    ax: Axes | None = None,
    *,
    layer: int = 1,
    kstpkper: tuple[int, int] | None = None,
    side: str = "middle",
) -> Axes:
    """Draws the heads of a layer at a step, the last where it isn't named, into axes of matplotlib; lower, upper or
    middle heads. `kstpkper`: step and period from 0, as FloPy counts."""
    drawn = import_module(f"{__package__}.pages.plot").plot_heads
    return drawn(listing, model, ax, layer, kstpkper, side)  # type: ignore[no-any-return]


def zones_frame(
    listing: Listing,
    model: Model | None = None,
    zones: PathLike | np.ndarray | None = None,
    verdict: Verdict | None = None,
) -> pandas.DataFrame:
    """A table of pandas: the flows between zones that a listing has (its lines ZONE); with a model and `zones`, a zone
    file or an array of zones, the whole budget of each zone, its nets narrowed. Rounded outward to doubles."""
    return import_module(f"{__package__}.frames").zones_frame(listing, model, zones, verdict)
