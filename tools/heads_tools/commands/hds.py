"""A head file of a listing."""
from __future__ import annotations

import argparse
from pathlib import Path
from typing import IO

from ..common.kept_files import demand_free
from ..common.text import counted
from ..deck.model import read_model
from ..listing.fitting import demand_fit, demand_whole
from ..listing.headfile import write_heads
from ..program.about import about_file, write_about
from ..program.verdict import status_of
from .shared import existing, listing_of, say, verdict_of
from .words import LISTING, add_force, add_to, add_wide, add_words

SIDES = {
    "lower": "the lower heads, rounded down",
    "upper": "the upper heads, rounded up",
    "middle": "the middles of the pairs, which are no bounds (so where left out)",
}


def add(sub: argparse.ArgumentParser) -> None:
    add_words(sub, LISTING, ("out", "the head file to write"))
    sub.add_argument("--name", type=Path, metavar="M.NAM", help="the model: its whole grid and its times")
    side = sub.add_mutually_exclusive_group()
    for name, about in SIDES.items():
        side.add_argument(f"--{name}", dest="side", action="store_const", const=name, help=about)
    sub.add_argument("--single", action="store_true", help="single precision (double where left out)")
    add_to(sub, "the second deck, where the listing is that of two decks")
    add_wide(sub)
    add_force(sub)


def do(args: argparse.Namespace, _: list[str], out: IO[str]) -> int:
    listing = listing_of(args.listing)
    model = read_model(existing(args.name)) if args.name else None
    demand_fit(listing, model) if model else demand_whole(listing)
    demand_free(args.out)
    verdict = verdict_of(args, listing)
    side = args.side or "middle"
    write_heads(args.out, listing, side, model.shape if model else None, model.times if model else None, args.single)
    write_about(args.out, verdict)
    how = {"lower": "rounded down", "upper": "rounded up", "middle": "rounded: no bounds"}[side]
    precision = "single" if args.single else "double"
    say(
        [
            verdict.sentence,
            f"{side} heads of {counted(len(listing.steps), 'step')} in {args.out} ({precision} precision, {how};"
            f" -999.99 where there is no flow); {about_file(args.out).name} says what they were made of",
        ],
        out,
    )
    return status_of(args.name, verdict)
