"""Words that several commands have, and what their texts have to be."""
from __future__ import annotations

import argparse
import math
from pathlib import Path
from typing import Callable, NoReturn

from ..common.text import Problem
from ..deck.ranges import range_of

WIDE_RUN = (
    "up to 4,194,304 cells, 4,096 rows or columns, 1,024 layers, files of 1 GiB; floors and ceilings that are out of "
    "range are cut"
)
NAM, LISTING = ("nam", "the model's name file"), ("listing", "a listing of heads")


class Wrong(Problem):
    """Words that the command doesn't know; `usage`: those that it knows."""

    def __init__(self, text: str, usage: str):
        super().__init__(text)
        self.usage = usage


class Parser(argparse.ArgumentParser):
    """A parser that raises Wrong: who calls it from Python has no use for the end of the process."""

    def error(self, message: str) -> NoReturn:
        raise Wrong(message, f"{self.format_usage()}{self.prog}: error: {message}")


def add_words(sub: argparse.ArgumentParser, *words: tuple[str, str]) -> None:
    """Adds words that name files, each with what it is."""
    for word, about in words:
        sub.add_argument(word, help=about, type=Path)


def add_place(sub: argparse.ArgumentParser, is_needed: bool) -> None:
    sub.add_argument("--name", type=Path, metavar="M.NAM", required=is_needed, help="the model: its grid and times")
    sub.add_argument(
        "--at",
        metavar="X0,Y0[,ANGLE[,EPSG]]",
        help="the grid's lower left corner, degrees against the clock, a code of EPSG; that of the name file's "
        "comments (xll, yll, rotation, EPSG) where left out",
    )


def add_zones(sub: argparse.ArgumentParser) -> None:
    sub.add_argument(
        "--zones",
        type=Path,
        metavar="M.ZON",
        help="the zone file of the run: heads check checks the flows between zones",
    )


def whole_number(least: int, most: int = 10**9) -> Callable[[str], int]:
    """What reads a whole number from `least` to `most`."""

    def read(text: str) -> int:
        number = int(text) if text.strip().lstrip("+-").isdigit() and len(text) < 20 else least - 1
        if not least <= number <= most:
            raise argparse.ArgumentTypeError(f"a whole number from {least} to {most:,} is due, and not {text}")
        return number

    return read


def positive(text: str) -> float:
    """A number above 0."""
    try:
        number = float(text)
    except ValueError:
        number = 0.0
    if not (number > 0 and math.isfinite(number)):
        raise argparse.ArgumentTypeError(f"a number above 0 is due, and not {text}")
    return number


def stress_range(text: str) -> object:
    try:
        return range_of(text)
    except ValueError:
        raise argparse.ArgumentTypeError(f"a range is LOW..HIGH, as 0.8..1.2 or -0.2..0.2, and not {text}") from None


def add_to(sub: argparse._ActionsContainer, about: str) -> None:
    sub.add_argument("--to", type=Path, metavar="TO.NAM", help=about)


def add_plan(sub: argparse._ActionsContainer) -> None:
    sub.add_argument(
        "--plan", type=Path, metavar="WELLS", help="the file of WEL of a listing of what a plan does (with --name)"
    )


def add_quick(sub: argparse.ArgumentParser) -> None:
    sub.add_argument(
        "--quick",
        action="store_true",
        help="a pair that was tested at each cell in place of the settled one: mostly 1.3 to 1.6 times as wide, in the "
        "time of a few solves; certified all the same, but the same bytes are not promised",
    )


def add_wide(sub: argparse._ActionsContainer, about: str = "") -> None:
    sub.add_argument(
        "--wide",
        action="store_true",
        help=about
        or "the check has the wide limits and cuts floors; given by itself where NAME.heads.run says that the run had "
        "the word",
    )


def add_force(sub: argparse.ArgumentParser) -> None:
    sub.add_argument(
        "--force",
        action="store_true",
        help="write over results that heads-tools didn't make, too; never over a file of a deck, or one that a name "
        "file names",
    )


def cell(text: str) -> tuple[int, int, int]:
    parts = text.replace(" ", ",").split(",")
    if len(parts) != 3 or not all(p.isdigit() for p in parts):
        raise argparse.ArgumentTypeError("a cell is K,I,J: layer, row, column")
    layer, row, column = map(int, parts)
    return layer, row, column


def named_point(text: str) -> tuple[str, float, float, int]:
    """A point of the map: its name, x, y and layer."""
    name, *rest = text.split(",")
    try:
        if not (2 <= len(rest) <= 3 and all(map(math.isfinite, map(float, rest)))):
            raise ValueError
        return name, float(rest[0]), float(rest[1]), int(rest[2]) if len(rest) == 3 else 1
    except ValueError:
        raise argparse.ArgumentTypeError(f"a point is NAME,X,Y or NAME,X,Y,LAYER, and not {text}") from None


def add_cells(sub: argparse.ArgumentParser, about: str) -> None:
    sub.add_argument(
        "--cell", type=cell, action="append", default=[], metavar="K,I,J", help=f"{about}; may stand again"
    )


def add_digits(sub: argparse.ArgumentParser) -> None:
    digits = "the digits of the runs, from 0 to 18 (12)"
    sub.add_argument("--digits", type=whole_number(0, 18), metavar="N", help=digits)
