"""Many samples of a deck, from templates and a table of values."""
from __future__ import annotations

import argparse
from pathlib import Path
from typing import IO

from ..common.text import Problem
from ..common.whole_files import whole_folder
from ..deck.dates import start_of
from ..deck.model import read_model
from ..planning.ensemble import NOTES, Asked, drop_samples, run_ensemble
from .shared import existing, flags_of, place_for, say
from .words import add_cells, add_digits, add_force, add_quick, add_wide, add_words, whole_number

ENSEMBLE = """\
Fills the templates (--tpl m.lpf.tpl, in the form of PEST; `heads-tools template` writes some) with each line of
VALUES, a table whose first line names the marks, runs all the decks as a batch, and collects the lower and upper heads
at the cells and points: samples.csv has those of each sample, least_most.csv the least lower and the most upper head of
all. These are samples: each bounds its own model alone. (Bounds for all stresses between two decks: heads run --to.)"""


def add(sub: argparse.ArgumentParser) -> None:
    add_words(
        sub,
        ("nam", "the deck's name file; its folder has the files that no template makes"),
        ("values", "the table: the marks' names, then a line for each sample; the column name names them"),
        ("folder", "the folder to write into, with a folder for each sample"),
    )
    sub.description = ENSEMBLE
    sub.add_argument(
        "--tpl", type=Path, action="append", default=[], metavar="FILE.TPL", help="a template; may stand again"
    )
    add_cells(sub, "the heads of this cell")
    sub.add_argument("--points", type=Path, metavar="POINTS", help="a table of points as `observe` takes it")
    sub.add_argument("--at", metavar="X0,Y0[,ANGLE[,EPSG]]", help="the grid's place, for points by x and y")
    sub.add_argument("--start", metavar="YYYY-MM-DD", help="the date on which the model starts, for points with dates")
    add_digits(sub)
    sub.add_argument("--jobs", type=whole_number(0), default=0, help="models at a time (the processors)")
    add_quick(sub)
    add_wide(sub, "the runs have the wide limits and cut floors")
    add_force(sub)


def do(args: argparse.Namespace, _: list[str], out: IO[str]) -> int:
    nam = existing(args.nam)
    if not args.tpl:
        raise Problem("ensemble needs a template: --tpl m.lpf.tpl (`heads-tools template` writes some)")
    if not args.cell and not args.points:
        raise Problem("ensemble needs a place to look at: --cell K,I,J or --points POINTS")
    if args.folder.resolve() == nam.parent:
        raise Problem("the samples go into another folder than the deck's own")
    model = read_model(nam)
    place, told = place_for(args, model) if args.points else (None, [])
    asked = Asked(
        nam,
        existing(args.values),
        [existing(path) for path in args.tpl],
        args.cell,
        existing(args.points) if args.points else None,
        options=[*flags_of(args), *(["--digits", str(args.digits)] if args.digits is not None else [])],
        jobs=args.jobs,
        start=start_of(args.start, nam),
    )
    if place:
        asked.place = place
    is_own = (args.folder / NOTES).is_file()
    with whole_folder(args.folder, "" if is_own else NOTES, is_own) as folder:
        said, status = run_ensemble(asked, folder)
        if is_own:
            drop_samples(args.folder)
    say([*told, *said, f"written: {args.folder}"], out)
    return status
