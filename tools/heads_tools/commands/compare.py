"""How far given heads are from every exact solution."""
from __future__ import annotations

import argparse
from pathlib import Path
from typing import IO

from ..common.text import LENGTHS
from ..deck.model import read_model
from ..listing.compare import compare, sentences, write_csv
from ..listing.fitting import demand_fit, demand_whole
from ..listing.headfile import read_heads
from ..program.about import about_file, write_about
from ..program.verdict import status_of
from .shared import existing, listing_of, model_for_zones, page_folder, say, verdict_of
from .words import LISTING, add_force, add_to, add_wide, add_words, add_zones


def add(sub: argparse.ArgumentParser) -> None:
    add_words(sub, LISTING, ("heads", "heads of MODFLOW: hds or CSV"))
    sub.add_argument("--map", type=Path, metavar="FOLDER", help="draw maps into this folder")
    sub.add_argument(
        "--csv", type=Path, metavar="FILE", help="a table of the steps: least, most, cells outside, the worst cell"
    )
    sub.add_argument(
        "--name",
        type=Path,
        metavar="M.NAM",
        help="the model, for the maps, and for heads check, which says whether the pairs are bounds",
    )
    add_to(sub, "the second deck, where the listing is that of two decks")
    add_zones(sub)
    add_wide(sub)
    add_force(sub)


def do(args: argparse.Namespace, _: list[str], out: IO[str]) -> int:
    model_for_zones(args)
    listing = listing_of(args.listing)
    model = read_model(existing(args.name)) if args.name else None
    demand_fit(listing, model) if model else demand_whole(listing)
    heads = read_heads(existing(args.heads), model.shape if model else None)
    verdict = verdict_of(args, listing)
    differences = compare(listing, heads)
    said = [verdict.sentence, *sentences(listing, differences, LENGTHS.get(listing.unit, "length units"))]
    if args.csv:
        write_csv(args.csv, listing, differences)
        write_about(args.csv, verdict)
        said.append(f"written: {args.csv}; {about_file(args.csv).name} says what it was made of")
    if args.map:
        from ..pages.look import look_at_given

        with page_folder(args.map) as folder:
            look_at_given(listing, folder, model, verdict, existing(args.heads))
        said.append(f"open {args.map / 'index.html'}")
    say(said, out)
    return status_of(args.name, verdict)
