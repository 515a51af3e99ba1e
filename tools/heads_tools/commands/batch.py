"""Runs many models and collects their ends."""
from __future__ import annotations

import argparse
from typing import IO

from ..program.batch import batch
from .shared import existing, flags_of
from .words import WIDE_RUN, add_force, add_quick, add_wide, add_words, whole_number


def add(sub: argparse.ArgumentParser) -> None:
    add_words(sub, ("list", "a file with one name file a line"))
    where = sub.add_mutually_exclusive_group()
    where.add_argument("--slurm", action="store_true", help="as an array job of Slurm")
    where.add_argument("--parallel", action="store_true", help="by GNU parallel")
    sub.add_argument("--jobs", type=whole_number(0), default=0, help="models at a time (the processors)")
    add_quick(sub)
    add_wide(sub, WIDE_RUN)
    sub.add_argument(
        "--write-only", action="store_true", help="with --slurm or --parallel: write the files, and run nothing"
    )
    add_force(sub)


def do(args: argparse.Namespace, options: list[str], out: IO[str]) -> int:
    way = "slurm" if args.slurm else "parallel" if args.parallel else "here"
    return batch(existing(args.list), [*options, *flags_of(args)], way, args.jobs, args.write_only, out)
