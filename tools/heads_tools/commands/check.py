"""What `heads check` says of a listing."""
from __future__ import annotations

import argparse
from pathlib import Path
from typing import IO

from ..common.text import Problem
from ..deck.model import read_model
from ..listing.fitting import demand_fit
from ..listing.listing import Listing, read_listing
from ..listing.spans import second_deck
from ..program.explain import explain
from ..program.verdict import check_listing, status_of
from .shared import existing, plan_in, say
from .words import NAM, add_to, add_wide, add_words, add_zones


def add(sub: argparse.ArgumentParser) -> None:
    add_words(sub, NAM, ("listing", "the listing"))
    add_to(sub, "the second deck, where the listing is that of two decks")
    sub.add_argument("--plan", type=Path, metavar="WELLS", help="the wells, where it is a listing of what a plan does")
    add_zones(sub)
    add_wide(sub)


def do(args: argparse.Namespace, _: list[str], out: IO[str]) -> int:
    nam, path, plan = existing(args.nam), existing(args.listing), existing(args.plan) if args.plan else None
    listing = plan_in(path).drawdown if plan else read_listing(path)
    zones = existing(args.zones) if args.zones else None
    verdict = check_listing(nam, listing, zones, second_deck(nam, args.to), args.wide, plan)
    is_refused = verdict.status is not None and not verdict.is_certified
    say([verdict.sentence, *(reasons(nam, listing, verdict.last) if is_refused else [])], out)
    return status_of(nam, verdict)


def reasons(nam: Path, listing: Listing, last: str) -> list[str]:
    """Why a listing isn't certified: it was cut, or is of another model; else what the check's last line means."""
    try:
        demand_fit(listing, read_model(nam, any_size=True))
    except Problem as error:
        return [str(error)]
    return explain(last, nam.parent, listing.digits).lines
