"""What `inside` says of a plan's listing: whether the heads of two runs, without the plan's wells and with them, lie
inside it."""
from __future__ import annotations

import argparse
from fractions import Fraction
from pathlib import Path
from typing import IO

from ..common.text import LENGTHS, Problem
from ..deck.model import read_model
from ..listing.headfile import read_heads
from ..listing.two_runs import inside_plan, sentences, told
from ..program.verdict import status_of
from .shared import existing, plan_listing_of, refuse_plan, say
from .words import add_plan, add_to, add_wide

WORDS = ("name", "plan", "to", "plan_heads", "within", "wide")


def add(sub: argparse.ArgumentParser) -> None:
    group = sub.add_argument_group("of a listing of what a plan does (heads run --plan), in place of a name file")
    group.add_argument("--name", type=Path, metavar="M.NAM", help="the base deck")
    add_plan(group)
    add_to(group, "the second deck, where the listing is that of two decks")
    group.add_argument(
        "--plan-heads",
        type=Path,
        metavar="PLAN.HDS",
        help="heads of a run with the plan's wells (hds or CSV); --heads names those of the run without them",
    )
    group.add_argument(
        "--within",
        type=length,
        metavar="LENGTH",
        help="how far outside of its two bounds a head or a difference may lie and count as inside (0)",
    )
    add_wide(group)


def length(text: str) -> Fraction:
    try:
        found = Fraction(text)
    except (ValueError, ZeroDivisionError):
        found = Fraction(-1)
    if found < 0:
        raise argparse.ArgumentTypeError(f"a length is a number from 0 up, as 0.001, and not {text}")
    return found


def refuse_words(args: argparse.Namespace) -> None:
    """Refuses the words of a plan's listing where a deck was named."""
    refuse_plan(args, WORDS)


def do(args: argparse.Namespace, out: IO[str]) -> int:
    """The status is that of the check, and 1 where something lies outside."""
    if not (args.heads and args.plan_heads):
        raise Problem(
            "of a plan's listing `inside` says whether the heads of two runs lie inside it: --heads BASE.HDS and"
            " --plan-heads PLAN.HDS"
        )
    model = read_model(existing(args.name)) if args.name else None
    listing, verdict = plan_listing_of(args, args.nam, model)
    shape = model.shape if model else None
    base, planned = (read_heads(existing(path), shape) for path in (args.heads, args.plan_heads))
    found = inside_plan(listing, base, planned, args.within or Fraction(0))
    unit = LENGTHS.get(listing.drawdown.unit, "length units")
    within = f"{float(args.within):g} {unit}" if args.within else ""
    tells = [told(found, listing.drawdown.is_span, within)] if verdict.holds else []
    say([verdict.sentence, *sentences(found, unit), *tells], out)
    return status_of(args.name, verdict) or int(any(each.outside for each in found))
