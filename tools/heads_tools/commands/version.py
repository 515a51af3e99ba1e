"""What is known of the program."""
from __future__ import annotations

import argparse
from typing import IO

from ..common.text import VERSION
from ..program.program import version
from .shared import say


def add(_: argparse.ArgumentParser) -> None:
    """The command has no words."""


def do(_: argparse.Namespace, __: list[str], out: IO[str]) -> int:
    known = version()
    say([f"heads-tools {VERSION} (not proved)", *known.lines], out)
    return 1 if known.is_recorded is False else 0
