"""Certified bounds from any solver's heads."""
from __future__ import annotations

import argparse
from pathlib import Path
from typing import IO

from ..common.text import Problem
from .shared import MOST_DIGITS, Ran, existing, say
from .words import NAM, add_force, add_wide, add_words, positive, whole_number


def add(sub: argparse.ArgumentParser) -> None:
    add_words(sub, NAM, ("heads", "heads to begin with: hds or CSV"))
    digits = "the digits of the listing, from 0 to 18 (12)"
    sub.add_argument("--digits", type=whole_number(0, 18), default=12, help=digits)
    sub.add_argument("--out", type=Path, help="the listing's file, NAME.certified.heads where left out")
    sub.add_argument(
        "--theta", type=positive, help="the margin, in roundings of a head; 0.5 and more are tried where left out"
    )
    sub.add_argument("--zones", type=Path, metavar="M.ZON", help="a zone file: the flows between its zones, too")
    sub.add_argument(
        "--convertible",
        action="store_true",
        help="layers may be convertible (LAYTYP other than 0): bounds for gentle heads, those whose fall from cell to "
        "cell is no more than the saturated thickness of the lower one; certified by heads check --convertible",
    )
    add_wide(sub, "the check has the wide limits and cuts floors; given by itself for more than 65,536 cells")
    add_force(sub)


def do(args: argparse.Namespace, options: list[str], out: IO[str]) -> int:
    return ran(args, options, out).status


def ran(args: argparse.Namespace, _: list[str], out: IO[str]) -> Ran:
    if not 0 <= args.digits <= MOST_DIGITS:
        raise Problem("--digits is from 0 to 18")
    nam = existing(args.nam)
    target = (args.out or nam.with_suffix(".certified.heads")).resolve()
    if args.convertible:
        if args.zones:
            raise Problem("--convertible bounds no flows between zones: leave --zones out")
        from ..water.certify_convertible import certify_convertible

        ended = certify_convertible(nam, existing(args.heads), args.digits, target, args.theta, args.wide)
        say(ended.lines, out)
        return Ran(ended.status, ended.last, ended.lines, ended.listing)
    from ..numbers.certify import certify

    zones = existing(args.zones) if args.zones else None
    ended = certify(nam, existing(args.heads), args.digits, target, args.theta, zones, args.wide)
    say(ended.lines, out)
    return Ran(ended.status, ended.last, ended.lines, ended.listing)
