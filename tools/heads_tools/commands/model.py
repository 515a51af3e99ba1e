"""What was read of a deck."""
from __future__ import annotations

import argparse
from typing import IO

from ..deck.describe import describe
from ..deck.model import read_model
from .shared import existing, say
from .words import NAM, add_words


def add(sub: argparse.ArgumentParser) -> None:
    add_words(sub, NAM)


def do(args: argparse.Namespace, _: list[str], out: IO[str]) -> int:
    say(describe(read_model(existing(args.nam))), out)
    return 0
