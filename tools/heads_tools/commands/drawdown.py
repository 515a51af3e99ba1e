"""What a plan does: of two listings, or of a base deck and a plan."""
from __future__ import annotations

import argparse
from pathlib import Path
from typing import IO

from ..common.kept_files import ENDS
from ..common.marks import plain
from ..common.text import LENGTHS, Problem
from ..common.whole_files import whole_folder
from ..deck.model import read_model
from ..listing.below_top import BelowTop
from ..listing.listing import Cell, Listing
from ..planning.drawdown import Drawdown, difference, tops_lines, verdict_of, write_changes
from ..planning.drawdown_weather import Asked
from ..program.verdict import status_of
from .shared import existing, listing_of, page_folder, say
from .words import (
    add_digits,
    add_force,
    add_quick,
    add_to,
    add_wide,
    add_words,
    add_zones,
    cell,
    named_point,
    stress_range,
)

DRAWDOWN_USAGE = """\
heads-tools drawdown BASE.NAM PLAN [FOLDER] [--to HIGH.NAM | --any] [--cell K,I,J] [--at NAME,X,Y] [--digits N] [..]
       heads-tools drawdown PLAN.HEADS BASE.HEADS FOLDER [--name PLAN.NAM] [--base-name BASE.NAM] [..]"""

DRAWDOWN = """\
Of two listings: their differences with bounds, into FOLDER. Of a base deck and a plan: what the plan does in the
weather of the deck, in every weather between it and a second deck (--to), or in any weather at all (--any), the same
with the plan as without it. The plan is a file of WEL, whose wells are added, or a name file of the base deck with
other wells. Two listings bound where the heads of both plans stand; by these two difference decks are written, and the
listing of all that lies between them bounds what the plan does to each head, and where its water comes from. `heads
run` makes and `heads check` certifies each listing. That the two difference decks enclose every pair of plans isn't
proved by machine."""


def add(sub: argparse.ArgumentParser) -> None:
    add_words(
        sub,
        ("plan", "the plan's listing; or the base deck's name file"),
        ("base", "the listing without the plan; or the plan: a file of WEL, or a name file"),
    )
    sub.description, sub.usage = DRAWDOWN, DRAWDOWN_USAGE
    sub.add_argument(
        "folder",
        nargs="?",
        type=Path,
        help="the folder to write into; of a base deck and a plan BASE-PLAN.drawdown where left out",
    )
    add_to(sub, "the base deck at the other end of the weather: what the plan does in every weather between the two")
    sub.add_argument("--any", action="store_true", help="what the plan does in any weather at all, by no heads")
    sub.add_argument(
        "--at",
        type=named_point,
        action="append",
        default=[],
        metavar="NAME,X,Y[,LAYER]",
        help="the drawdown at the cell of this point of the map; may stand again",
    )
    sub.add_argument(
        "--hk",
        type=stress_range,
        metavar="LOW..HIGH",
        help="with --any, of one well in steady periods: the drawdown at the well itself for every HK between these"
        " factors of the deck's, cell by cell (not proved)",
    )
    add_digits(sub)
    add_quick(sub)
    sub.add_argument(
        "--name",
        type=Path,
        metavar="PLAN.NAM",
        help="the plan's model: its listing is checked; true widths, times, units",
    )
    sub.add_argument("--base-name", type=Path, metavar="BASE.NAM", help="the base's model: its listing is checked")
    add_zones(sub)
    add_wide(sub, "the checks, and the runs of decks, have the wide limits and cut floors")
    sub.add_argument(
        "--cell", type=cell, action="append", default=[], metavar="K,I,J", help="a curve of this cell; may stand again"
    )
    add_force(sub)


def do(args: argparse.Namespace, _: list[str], out: IO[str]) -> int:
    if args.to or args.any or not is_listing(args.plan):
        return drawdown_of_decks(args, out)
    if args.at or args.digits is not None or args.quick or args.hk:
        raise Problem("--at, --digits, --quick and --hk go with a base deck and a plan, and not with two listings")
    if args.folder is None:
        raise Problem("drawdown of two listings needs the folder to write into as its third word")
    if args.zones and not (args.name or args.base_name):
        raise Problem("--zones needs a model, too: --name PLAN.NAM, --base-name BASE.NAM")
    plan, base = (listing_of(each) for each in (args.plan, args.base))
    name, base_name, zones = (existing(path) if path else None for path in (args.name, args.base_name, args.zones))
    with page_folder(args.folder) as folder:
        said, status = drawdown(plan, base, folder, name, base_name, args.cell, zones, args.wide)
    say(said + [f"open {args.folder / 'index.html'}"], out)
    return status


def is_listing(given: Path | Listing) -> bool:
    """Whether this is a listing, or the output of a run without one, and not a deck."""
    if isinstance(given, Listing):
        return True
    with open(existing(given), "rb") as file:
        return plain(file.read(400))[0].startswith(ENDS)


def drawdown_of_decks(args: argparse.Namespace, out: IO[str]) -> int:
    """What a plan does whatever the weather: `args.plan` is the base deck, `args.base` the plan."""
    if args.name or args.base_name or args.zones:
        raise Problem("--name, --base-name and --zones go with two listings, and not with a base deck and a plan")
    if isinstance(args.base, Listing) or is_listing(args.plan) or is_listing(args.base):
        raise Problem("with --to or --any the words are the base deck's name file and the plan: no listings")
    from ..pages.weather_page import NOTES, drawdown_weather, folder_of

    cells = {each: "" for each in args.cell}
    words = existing(args.plan), existing(args.base), args.to, args.any, cells, args.at, args.digits
    asked = Asked(*words, is_quick=args.quick, has_wide=args.wide)
    target = folder_of(asked, args.folder).resolve()
    with whole_folder(target, "index.html", is_own=(target / NOTES).is_file()) as folder:
        said, status = drawdown_weather(asked, folder, args.hk)
    say(said + [f"open {target / 'index.html'}; the decks and the listings lie beside it"], out)
    return status


def drawdown(
    plan: Listing,
    base: Listing,
    folder: Path,
    nam: Path | None = None,
    base_nam: Path | None = None,
    cells: list[Cell] | None = None,
    zones: Path | None = None,
    has_wide: bool = False,
) -> tuple[list[str], int]:
    """Tables, a map, curves and a page of what a plan does; what there is to say, and the first status of a check that
    isn't 0. `nam`, `base_nam`: the models, for the checks, true widths, times and units; `zones`: the zone file of both
    runs, `has_wide`: the word --wide, for the checks."""
    from ..pages.drawdown_page import draw

    cells = list(cells or [])
    for each in cells:
        plan.at(each)
    model, base_model = (read_model(name) if name else None for name in (nam, base_nam))
    if base_model and model and base_model.times != model.times:
        raise Problem(f"{base_nam} has other times at the ends of its steps than {nam}")
    seen = [verdict_of(listing, name, zones, has_wide) for listing, name in ((plan, nam), (base, base_nam))]
    known = [(one, BelowTop(m.deck, each)) for one, m, each in zip(seen, (model, base_model), (plan, base)) if m]
    it = Drawdown(
        plan,
        base,
        difference(plan, base),
        model.length if model else LENGTHS.get(plan.unit, "length units"),
        model,
        seen,
        tops_lines(known),
    )
    folder.mkdir(parents=True, exist_ok=True)
    draw(it, folder, cells, write_changes(it, folder))
    status = status_of(nam, seen[0]) or status_of(base_nam, seen[1])
    return it.sentences(cells) + it.term_sentences(), status
