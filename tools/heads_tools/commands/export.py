"""A listing as files of other programs."""
from __future__ import annotations

import argparse
from pathlib import Path
from typing import IO

from ..common.text import Problem
from ..common.whole_files import whole_folder
from ..deck.model import Model, read_model
from ..exports.files import FORMATS, export
from ..exports.parts import AnyListing
from ..listing.fitting import demand_fit
from ..listing.plan_listing import is_plan_listing
from ..planning.drawdown import changes_of
from ..program.verdict import Verdict, both, check_listing, not_checked, status_of
from .shared import existing, listing_of, place_for, plan_listing_of, refuse_plan, say, verdict_of
from .words import LISTING, add_force, add_place, add_plan, add_to, add_wide, add_words

NO_BASE = "the other run's model wasn't named by --base-name"


def add(sub: argparse.ArgumentParser) -> None:
    add_words(sub, LISTING, ("folder", "the folder to write into"))
    add_place(sub, True)
    sub.add_argument(
        "--as", dest="formats", default=",".join(FORMATS), metavar="LIST", help="of nc, tif, gpkg, vtu, csv (all)"
    )
    sub.add_argument(
        "--last", action="store_true", help="GeoTIFF, VTK and GeoPackage of the last step alone, and not of every step"
    )
    sub.add_argument(
        "--minus", type=Path, metavar="BASE.HEADS", help="another listing: export the change of the heads, with bounds"
    )
    sub.add_argument("--base-name", type=Path, metavar="BASE.NAM", help="the other run's model: its listing is checked")
    sub.add_argument(
        "--start",
        metavar="YYYY-MM-DD",
        help="the date on which the model starts, for the times of NetCDF; that of the name file's comments where left "
        "out",
    )
    add_to(sub, "the second deck, where the listing is that of two decks")
    add_plan(sub)
    add_wide(sub)
    add_force(sub)


def do(args: argparse.Namespace, _: list[str], out: IO[str]) -> int:
    formats = [f for f in args.formats.split(",") if f]
    if not formats or not set(formats) <= set(FORMATS):
        raise Problem(f"--as is a list of {', '.join(FORMATS)}")
    model = read_model(existing(args.name))
    place, told = place_for(args, model)
    listing, verdict, status = (plan_of if is_plan_listing(args.listing) else heads_of)(args, model)
    with whole_folder(args.folder) as folder:
        said = export(listing, folder, model, place, formats, args.last, verdict, args.start)
    say([verdict.sentence, *told, *(line.replace(str(folder), str(args.folder)) for line in said)], out)
    return status


def heads_of(args: argparse.Namespace, model: Model) -> tuple[AnyListing, Verdict, int]:
    """The listing of heads, or the change from another one, with the verdict and the status."""
    refuse_plan(args)
    listing, base = listing_of(args.listing), listing_of(args.minus) if args.minus else None
    for each in (listing, base) if base else (listing,):
        demand_fit(each, model)
    verdict = verdict_of(args, listing)
    status = status_of(args.name, verdict)
    if not base:
        return listing, verdict, status
    name = existing(args.base_name) if args.base_name else None
    seen = check_listing(name, base, has_wide=args.wide) if name else not_checked(base, NO_BASE)
    return changes_of(listing, base), both(verdict, seen), status or status_of(name, seen)


def plan_of(args: argparse.Namespace, model: Model) -> tuple[AnyListing, Verdict, int]:
    """The same of a listing of what a plan does."""
    if args.minus or args.base_name:
        raise Problem("--minus and --base-name go with a listing of heads: a plan's listing has the difference itself")
    listing, verdict = plan_listing_of(args, args.listing, model)
    return listing, verdict, status_of(args.name, verdict)
