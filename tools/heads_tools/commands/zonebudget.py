"""The water budget of each zone."""
from __future__ import annotations

import argparse
import csv
import io
from pathlib import Path
from typing import IO

from ..common.text import counted, decimal_text
from ..common.whole_files import whole_file
from ..deck.model import read_model
from ..listing.fitting import demand_fit
from ..listing.listing import Listing
from ..listing.spans import demand_one
from ..listing.zones import read_zones
from ..numbers.zone_budget import zone_budgets
from ..program.about import write_about
from ..program.verdict import Verdict, check_listing, has_zones, status_of
from .shared import existing, listing_of, say
from .words import LISTING, add_force, add_wide, add_words

HEADER = (
    "period step time zone term in_lower in_upper out_lower out_upper net_lower net_upper narrowed_lower narrowed_upper"
)
ZONEBUDGET = """\
Of each zone and step: wells, rivers, drains, general heads, constant heads, recharge, evapotranspiration, storage, and
what flows through the faces to each other zone (ZONE n; ZONE 0: cells of no zone), in and out, each with a lower and an
upper bound. They are sums over the listed pairs of heads in whole numbers, rounded outward: every exact solution that
lies between the listed heads has its flows between them. A net term is also narrowed to what the other terms of its
zone leave. Computed by heads-tools, and not proved; heads check certifies the heads."""


def add(sub: argparse.ArgumentParser) -> None:
    add_words(sub, LISTING, ("zones", "the zone file: an array of whole numbers for each layer"))
    sub.add_argument("--name", type=Path, metavar="M.NAM", required=True, help="the model; heads check is called first")
    sub.description = ZONEBUDGET
    sub.add_argument("--out", type=Path, help="the table's file, standard output where left out")
    add_wide(sub)
    add_force(sub)


def checked(nam: Path, listing: Listing, zones: Path, has_wide: bool) -> Verdict:
    """What `heads check` says: with the zone file where the listing has its flows, else of the heads alone."""
    if has_zones(listing):
        verdict = check_listing(nam, listing, zones, has_wide=has_wide)
        if verdict.is_certified:
            return verdict
    return check_listing(nam, listing, has_wide=has_wide)


def do(args: argparse.Namespace, _: list[str], out: IO[str]) -> int:
    nam = existing(args.name)
    listing, model = listing_of(args.listing), read_model(nam)
    demand_one(listing, "the budget of a zone is that of one model")
    demand_fit(listing, model)
    zone_file = existing(args.zones)
    zones = read_zones(zone_file, nam, model.shape)
    verdict = checked(nam, listing, zone_file, args.wide)
    text, places = io.StringIO(), listing.flow_places
    writer = csv.writer(text, lineterminator="\n")
    writer.writerow(HEADER.split(" "))
    count = 0
    for budget in zone_budgets(model, listing, zones):
        time = f"{model.times[budget.period, budget.step][1]:.12g}"
        for row in [*budget.rows, budget.total]:
            values = [*row.sums, *(budget.narrowed(row) if row in budget.rows else (0, 0))]
            numbers = [decimal_text(value, places) for value in values]
            writer.writerow([budget.period, budget.step, time, budget.zone, row.term, *numbers])
            count += 1
    said = [verdict.sentence]
    if args.out:
        with whole_file(args.out) as file:
            file.write(text.getvalue())
        write_about(args.out, verdict)
        said.append(f"written: {args.out} ({counted(count, 'line')})")
    else:
        said += text.getvalue().rstrip("\n").split("\n")
    say(said, out)
    return status_of(nam, verdict)
