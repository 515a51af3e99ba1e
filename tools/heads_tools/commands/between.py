"""Two decks of one shape in a folder."""
from __future__ import annotations

import argparse
from pathlib import Path
from typing import IO

from ..deck.decks_between import Ranges, write_between
from .shared import existing, say
from .words import NAM, add_words, stress_range

BETWEEN = """\
Writes two decks of one shape, from.nam and to.nam, for `heads run from.nam --to to.nam`, whose listing holds for every
deck between the two. The first deck has the first number of each range, the second one the second: factors of the
pumping and of the recharge, shifts of the stages of rivers. With --package the second deck has the packages of another
plan; an entry that only one plan has gets the rate or the conductance 0 in the other. All numbers are exact, and files
that don't differ are written once. MODFLOW-2005 runs each of the two where it runs the deck."""


def add(sub: argparse.ArgumentParser) -> None:
    add_words(sub, NAM, ("folder", "the folder to write into"))
    sub.description = BETWEEN
    for word, about in (
        ("--wells", "factors of the rates of WEL, as 0..1"),
        ("--recharge", "factors of RECH, as 0.8..1.2"),
        ("--stage", "shifts of the stages of RIV in length units, as -0.2..0.2"),
    ):
        sub.add_argument(word, type=stress_range, metavar="LOW..HIGH", help=about)
    sub.add_argument(
        "--package",
        type=Path,
        nargs="+",
        action="extend",
        default=[],
        metavar="FILE",
        help="packages of another plan for the second deck; their endings say which, as plan.wel",
    )


def do(args: argparse.Namespace, _: list[str], out: IO[str]) -> int:
    named = {name: span for name in ("wells", "recharge", "stage") if (span := getattr(args, name))}
    packages = [existing(path) for path in args.package]
    say(write_between(existing(args.nam), args.folder, Ranges(**named, packages=packages)), out)
    return 0
