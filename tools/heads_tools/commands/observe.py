"""Heads at observation points."""
from __future__ import annotations

import argparse
import sys
from pathlib import Path
from typing import IO

from ..common.text import Problem
from ..common.whole_files import whole_file, whole_folder
from ..deck.dates import start_of
from ..deck.model import Model, read_model
from ..deck.places import Place
from ..listing.fitting import demand_fit
from ..listing.observe import Observed, observe, observe_plan
from ..listing.pest import write_pest
from ..listing.plan_listing import PARTS, is_plan_listing
from ..listing.points import Points
from ..listing.spans import demand_one, second_deck
from ..program.about import write_about
from ..program.verdict import Verdict, status_of
from .shared import existing, listing_of, place_for, plan_listing_of, refuse_plan, say, verdict_of
from .words import LISTING, add_force, add_place, add_plan, add_to, add_wide, add_words, add_zones

OBSERVE = """\
Lower and upper head at points, beside what was measured there. A point of a table is at the head of its cell, or
with --between on the surface through the middles of the cells next to it, as an observation of a HOB file with
offsets ROFF and COFF: bilinear between four cells with flow, the plane through three, straight between two. In
several layers (MLAY, PR) the head is the sum of their shares. In a transient step it lies on the straight line from
the step's begin to its end, in a steady one it is that at its end. All weights are exact, and the result is rounded
outward: if the listed pairs are bounds, the head that is so made of any exact solution lies between lower and upper.
Of a listing of what a plan does (--plan, --to) the first of --part is what was measured: heads without the plan's
wells (BASE), heads with them (PLAN), or drawdowns; the pairs of the others stand beside it."""


def add(sub: argparse.ArgumentParser) -> None:
    add_words(sub, LISTING, ("points", "the table or the HOB file"))
    add_place(sub, True)
    sub.description = OBSERVE
    sub.add_argument("--quiet", action="store_true", help="no sentences on standard error: the table alone")
    add_to(sub, "the second deck, where it is a plan's listing of two decks")
    add_plan(sub)
    sub.add_argument(
        "--part",
        type=parts,
        metavar="LIST",
        help="of a plan's listing: of BASE, PLAN, DRAWDOWN, with commas between, what was measured first (BASE)",
    )
    add_zones(sub)
    add_wide(sub)
    sub.add_argument("--between", action="store_true", help="points of a table lie between the middles of cells, too")
    sub.add_argument("--out", type=Path, help="the table's file, standard output where left out")
    sub.add_argument(
        "--start",
        metavar="YYYY-MM-DD",
        help="the date on which the model starts, for points with dates; that of the name file's comments where left "
        "out",
    )
    sub.add_argument(
        "--picture", type=Path, metavar="FILE.PNG", help="a picture: measured beside lower and upper heads"
    )
    sub.add_argument(
        "--pest",
        type=Path,
        metavar="FOLDER",
        help="observed.out, observed.ins and observed.pst for PEST: the middles of the pairs of all points with a"
        " measured head, their instructions, and the control file's lines (column weight, else 1)",
    )
    add_force(sub)


def parts(text: str) -> tuple[str, ...]:
    """The parts of a plan's listing that are asked for."""
    named = tuple(dict.fromkeys(text.upper().split(",")))
    if not set(named) <= set(PARTS):
        raise argparse.ArgumentTypeError(f"a part is BASE, PLAN or DRAWDOWN, with commas between, and not {text}")
    return named


def do(args: argparse.Namespace, _: list[str], out: IO[str]) -> int:
    model = read_model(existing(args.name))
    place, told = place_for(args, model)
    seen, verdict = (of_plan if is_plan_listing(args.listing) else of_heads)(args, model, place)
    written = []
    if args.picture:
        from ..pages.observed_picture import draw_observed

        draw_observed(args.picture, seen)
        written.append(f"written: {args.picture}")
    if args.pest:
        with whole_folder(args.pest) as folder:
            written += write_pest(folder, seen.observations)
    lines = seen.table().rstrip("\n").split("\n")
    if args.out:
        with whole_file(args.out) as file:
            file.write(seen.table())
        write_about(args.out, verdict)
        lines = [f"written: {args.out} ({len(lines) - 1} lines)"]
    if not args.quiet:
        print("\n".join([verdict.sentence, *told, *seen.lacking(), *written]), file=sys.stderr)
    say(lines, out)
    return status_of(args.name, verdict)


def of_heads(args: argparse.Namespace, model: Model, place: Place) -> tuple[Observed, Verdict]:
    """The points with the heads of a listing, and the verdict on it."""
    refuse_plan(args, ("plan", "part"))
    listing = listing_of(args.listing)
    demand_one(listing, "observe compares with one model's heads. `heads-tools compare` takes a listing of two")
    demand_fit(listing, model)
    verdict, begin = verdict_of(args, listing), start_of(args.start, model.deck.path)
    return observe(listing, model, existing(args.points), place, args.between, begin), verdict


def of_plan(args: argparse.Namespace, model: Model, place: Place) -> tuple[Observed, Verdict]:
    """The points with what a plan's listing says of them, and the verdict on it."""
    if args.pest:
        raise Problem("--pest calibrates by the heads of one deck: take a listing of heads")
    listing, verdict = plan_listing_of(args, args.listing, model)
    nam, begin = existing(args.name), start_of(args.start, model.deck.path)
    to = second_deck(nam, args.to)
    other = read_model(nam.with_name(to[1])) if to else None
    file = Points(existing(args.points), listing.drawdown, model, place, args.between, begin)
    return observe_plan(listing, model, other, file, args.part or PARTS[:1]), verdict
