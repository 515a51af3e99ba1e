"""What the last line of an output means, and what to change."""
from __future__ import annotations

import argparse
from pathlib import Path
from typing import IO

from ..program.explain import explain_output
from .shared import existing, say
from .words import add_words, whole_number


def add(sub: argparse.ArgumentParser) -> None:
    add_words(sub, ("output", "an output of heads"))
    sub.add_argument("folder", nargs="?", type=Path, help="the model's folder, the output's own where left out")
    digits = "the digits of the run, where they aren't in the output"
    sub.add_argument("--digits", type=whole_number(0, 18), help=digits)


def do(args: argparse.Namespace, _: list[str], out: IO[str]) -> int:
    meaning = explain_output(existing(args.output), (args.folder or args.output.parent), args.digits)
    say(meaning.lines, out)
    return meaning.status
