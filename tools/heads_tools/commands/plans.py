"""One page that compares all listings of a batch."""
from __future__ import annotations

import argparse
from typing import IO

from .shared import existing, page_folder, say
from .words import add_force, add_words, cell


def add(sub: argparse.ArgumentParser) -> None:
    add_words(sub, ("list", "the batch's list"), ("folder", "the folder to write into"))
    sub.add_argument("--base", metavar="NAME", help="the model of the list to compare with, the first where left out")
    sub.add_argument(
        "--cell",
        type=cell,
        action="append",
        default=[],
        metavar="K,I,J",
        help="the drawdown at this cell; may stand again",
    )
    add_force(sub)


def do(args: argparse.Namespace, _: list[str], out: IO[str]) -> int:
    from ..pages.plans import compare_plans

    with page_folder(args.folder) as folder:
        said, status = compare_plans(existing(args.list), folder, args.base, args.cell)
    say(said + [f"open {args.folder / 'index.html'}"], out)
    return status
