"""What a command as a call of Python is made of: its words, its run, and its answer."""
from __future__ import annotations

import argparse
import io
from dataclasses import dataclass
from typing import Any, Iterator, Sequence, Union, cast

from .cli import joined, parser
from .commands import PASSING, command
from .commands.shared import guarded
from .common.text import Problem
from .listing.listing import Cell, Listing
from .listing.plan_listing import PlanListing
from .program.failures import failure_of

Cells = Union[Cell, Sequence[Cell], None]
Span = Union[str, "tuple[float, float]", None]


@dataclass(repr=False)
class Answer:
    """How a command ended: its status (0: well), what it said, and the listing that it wrote, if any. Taken apart it is
    `success, lines = run(..)`."""

    command: str
    status: int
    lines: list[str]
    written: Listing | None = None

    def __repr__(self) -> str:
        return f"<{self.command}: status {self.status}, {self.lines[0] if self.lines else 'nothing said'}>"

    def __str__(self) -> str:
        return "\n".join(self.lines)

    def __iter__(self) -> Iterator[Any]:
        return iter((self.is_good, self.lines))

    @property
    def is_good(self) -> bool:
        return self.status == 0

    @property
    def listing(self) -> Listing:
        """The listing that the command wrote, as it was written: what became of the file later changes nothing."""
        if self.written is None:
            raise Problem(f"{self.command} wrote no listing")
        return self.written


def option_words(options: dict[str, Any]) -> list[str]:
    """The words of options by name: True is the word alone, None and False nothing, a list each of its values."""
    out = []
    for name, value in options.items():
        word = "--" + name.replace("_", "-")
        for one in value if isinstance(value, list) else [value]:
            text = ",".join(map(str, one)) if isinstance(one, tuple) else str(one)
            out += [] if one is None or one is False else [word] if one is True else [word, text]
    return out


def arguments(name: str, given: dict[str, Any], options: dict[str, Any]) -> tuple[argparse.Namespace, list[str]]:
    """What the command's parser makes of words by name and of options. Listings in memory are handed over as they
    are."""
    in_memory = (Listing, PlanListing)
    memory = {name: each for name, each in (given | options).items() if isinstance(each, in_memory)}
    words = [str(each.path if isinstance(each, in_memory) else each) for each in given.values()]
    named = {name: each.path if isinstance(each, in_memory) else each for name, each in options.items()}
    try:
        args, rest = parser([name]).parse_known_args(joined([name, *words, *option_words(named)]))
    except SystemExit:
        raise Problem(f"{name}: help and version are for the command line") from None
    if rest and name not in PASSING:
        raise Problem(f"{name} doesn't know {' '.join(rest)}")
    vars(args).update(memory)
    return args, rest


def call(name: str, given: dict[str, Any], options: dict[str, Any]) -> Answer:
    """Does a command, whose words are `given` by their names in the parser."""
    args, rest = arguments(name, given, options)
    said = io.StringIO()
    with guarded(args, rest):
        status = command(name).do(args, rest, said)
    return Answer(name, status, said.getvalue().rstrip("\n").split("\n"))


def made(name: str, given: dict[str, Any], options: dict[str, Any], is_strict: bool = True) -> Answer:
    """Does a command that makes a listing; where it makes none, raises RunFailed if that is asked for."""
    args, rest = arguments(name, given, options)
    said = io.StringIO()
    with guarded(args, rest):
        ran = command(name).ran(args, rest, said)
    if is_strict and (ran.status != 0 or ran.listing is None):
        raise failure_of(ran.status, ran.last, ran.lines)
    return Answer(name, ran.status, said.getvalue().rstrip("\n").split("\n"), ran.listing)


def cells_of(cells: Cells) -> list[Cell]:
    """Cells as a list: one, some or none."""
    if cells is None:
        return []
    if len(cells) == 3 and all(isinstance(number, int) for number in cells):
        return [cast(Cell, tuple(cells))]
    return list(cast("Sequence[Cell]", cells))


def span_of(span: Span) -> str | None:
    return "{}..{}".format(*span) if isinstance(span, tuple) else span
