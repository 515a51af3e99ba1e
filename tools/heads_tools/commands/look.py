"""Tables, pictures and a page of a listing."""
from __future__ import annotations

import argparse
from pathlib import Path
from typing import IO

from ..common.text import Problem
from ..deck.model import read_model
from ..listing.plan_listing import is_plan_listing
from ..listing.zones import read_zones
from ..common.whole_files import whole_folder
from ..planning.drawdown_weather import Asked
from ..program.verdict import status_of
from .shared import (
    existing,
    listing_of,
    model_for_zones,
    page_folder,
    plan_listing_of,
    refuse_plan,
    say,
    verdict_of,
)
from .words import LISTING, add_force, add_plan, add_to, add_wide, add_words, cell, named_point

LOOK = """\
Tables, maps, sections, hydrographs, budget and a page. Each net budget term (in less out) has two pairs of bounds:
the one of its listed in and out, and that narrowed to what the other terms leave, minus the sum of their bounds.
Every exact solution's net term lies within both, by the theorem net_terms_lie_in_the_others (crates/exact_budgets),
where the listing ends with END and was written by `heads run` or certified by `heads check`."""


def add(sub: argparse.ArgumentParser) -> None:
    add_words(sub, LISTING, ("folder", "the folder to write into"))
    sub.description = LOOK
    sub.add_argument(
        "--name",
        type=Path,
        metavar="M.NAM",
        help="the model: true widths, elevations, times, units; and the listing is checked against it by heads check",
    )
    add_to(sub, "the second deck, where the listing is that of two decks")
    add_plan(sub)
    sub.add_argument(
        "--cell",
        type=cell,
        action="append",
        default=[],
        metavar="K,I,J",
        help="a hydrograph of this cell; may stand again",
    )
    sub.add_argument(
        "--at",
        type=named_point,
        action="append",
        default=[],
        metavar="NAME,X,Y[,LAYER]",
        help="of a plan's listing: the drawdown at the cell of this point of the map; may stand again",
    )
    sub.add_argument(
        "--given", type=Path, metavar="RUN.HDS", help="heads of MODFLOW (hds or CSV): how far they are off"
    )
    sub.add_argument(
        "--minus", type=Path, metavar="BASE.HEADS", help="another listing: the difference of the heads, with bounds"
    )
    sub.add_argument(
        "--zones",
        type=Path,
        metavar="M.ZON",
        help="the zone file of the run: a map of the zones with their net flows, which heads check then checks, too",
    )
    sub.add_argument(
        "--page",
        action="store_true",
        help="the interactive map alone, FOLDER/map.html, in one file: layers, steps, sections, curves over time, and "
        "both heads of the cell that one points at",
    )
    add_wide(sub)
    sub.add_argument("--every", action="store_true", help="maps of every step, and not of the last alone")
    sub.add_argument("--svg", action="store_true", help="each picture as SVG, too")
    add_force(sub)


def do(args: argparse.Namespace, _: list[str], out: IO[str]) -> int:
    model_for_zones(args)
    if is_plan_listing(args.listing):
        return do_plan(args, out)
    refuse_plan(args)
    if args.at:
        raise Problem(f"--at goes with a plan's listing, and {args.listing} is none: name the cell (--cell)")
    listing = listing_of(args.listing)
    model = read_model(existing(args.name)) if args.name else None
    verdict = verdict_of(args, listing)
    given = existing(args.given) if args.given else None
    zones = read_zones(existing(args.zones), existing(args.name), model.shape) if args.zones and model else None
    base = listing_of(args.minus) if args.minus else None
    from ..pages.look import look, look_at_map
    from ..pages.map_page import NAME

    if args.page:
        with whole_folder(args.folder, NAME) as folder:
            said = look_at_map(listing, folder, model, verdict, zones, base)
        say(said + [f"open {args.folder / NAME}"], out)
        return status_of(args.name, verdict)
    with page_folder(args.folder) as folder:
        said = look(listing, folder, model, args.cell, given, args.every, verdict, zones, base, args.svg)
    say(said + [f"open {args.folder / 'index.html'}"], out)
    return status_of(args.name, verdict)


def do_plan(args: argparse.Namespace, out: IO[str]) -> int:
    """The page of a listing of what a plan does."""
    if args.given or args.minus or args.page or args.every or args.svg:
        raise Problem("--given, --minus, --page, --every and --svg go with a listing of heads")
    listing, verdict = plan_listing_of(args, args.listing)
    from ..pages.weather_page import look_at_plan

    cells = {each: "" for each in args.cell}
    asked = Asked(existing(args.name), existing(args.plan), args.to, cells=cells, points=args.at, has_wide=args.wide)
    with page_folder(args.folder) as folder:
        said = look_at_plan(asked, listing, verdict, folder)
    say(said + [f"open {args.folder / 'index.html'}"], out)
    return status_of(args.name, verdict)
