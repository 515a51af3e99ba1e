"""Which share of a well's water each term of the budget gives, for a well at each of some cells."""
from __future__ import annotations

import argparse
from pathlib import Path
from typing import IO

from ..common.text import Problem
from ..common.whole_files import whole_folder
from ..deck.model import read_model
from ..listing.zones import read_zones
from ..planning.drawdown_weather import Asked
from .shared import existing, say
from .words import add_cells, add_digits, add_force, add_quick, add_to, add_wide, add_words, whole_number

CAPTURE = """\
A well of one rate is put into each cell in turn, as a plan beside the deck, and a run of `heads` bounds what each term
of the budget gives more: the share of the well's water that comes from rivers, drains, storage, known heads and
evapotranspiration. In the weather of the deck, or with --to in every weather between it and a second deck, the same
with the well as without it. Tables, and maps of the least and the greatest share. Shares of terms are the program's
own bounds; those of reaches are computed here from its listed heads and drawdowns, which isn't proved."""


def add(sub: argparse.ArgumentParser) -> None:
    add_words(sub, ("nam", "the deck's name file"), ("folder", "the folder to write into"))
    sub.description = CAPTURE
    sub.add_argument("--rate", required=True, metavar="Q", help="what the well takes, in every period")
    add_to(sub, "the deck at the other end of the weather")
    add_cells(sub, "a well at this cell")
    layer = "without --cell: the layer of the wells (1)"
    sub.add_argument("--layer", type=whole_number(1), default=1, metavar="K", help=layer)
    every = "without --cell: a well in each N-th row and column (1)"
    sub.add_argument("--every", type=whole_number(1), default=1, metavar="N", help=every)
    sub.add_argument(
        "--reaches", type=Path, metavar="M.ZON", help="a zone file: the shares of the rivers, drains and general heads"
        " of each of its zones, too"
    )  # fmt: skip
    add_digits(sub)
    add_quick(sub)
    add_wide(sub, "the runs and checks have the wide limits and cut floors")
    add_force(sub)


def do(args: argparse.Namespace, _: list[str], out: IO[str]) -> int:
    from ..pages.capture_page import NOTES, capture

    nam = existing(args.nam)
    cells = {each: "" for each in args.cell}
    asked = Asked(nam, nam, args.to, cells=cells, digits=args.digits, is_quick=args.quick, has_wide=args.wide)
    shape = read_model(nam).shape
    reaches = read_zones(existing(args.reaches), nam, shape) if args.reaches else None
    target = args.folder.resolve()
    if target == nam.parent.resolve():
        raise Problem(f"{args.folder} has the deck: the results go into another folder")
    with whole_folder(target, "index.html", is_own=(target / NOTES).is_file()) as folder:
        said, status = capture(asked, folder, args.rate, args.layer, args.every, reaches)
    say([*said, f"open {target / 'index.html'}"], out)
    return status
