"""plain: writes a deck in a spelling that `heads` reads: the one of `heads write` where the deck is read as it is, else
as few changes as it takes; of a MODFLOW 6 simulation the deck with its equations. Each number keeps its value, but
where a note says `rounded`."""
from __future__ import annotations

import argparse
from dataclasses import dataclass
from pathlib import Path
from typing import IO

from ..common.text import Problem
from ..common.whole_files import whole_file, whole_folder
from ..deck.packages import read_deck
from ..deck.sources import Report
from ..deck.which_modflow import is_simulation
from ..deck.writing import NOTES, write_deck, written_name
from ..modflow6.translate import read_simulation
from ..program.reading import one_spelling, refused, with_time_unit
from ..water.plain_water import WrittenWater, plain_water
from .shared import existing, say
from .words import add_words

NOT_CHANGED = "nothing but layout was changed"
AS_READ = (
    "nothing had to be changed: these are the files of `heads write`, the model that the program reads from the deck,"
    " in one spelling, with the deck's ITMUNI, for which `heads write` puts 0"
)


@dataclass
class Written:
    """A deck that was written: its name file, what there is to say where nothing had to be changed, the report of its
    reading, and what the program says of it where it refuses it."""

    path: Path
    unchanged: str
    report: Report
    refused: list[str]

    def notes(self) -> list[str]:
        """Each change in a line, and why the program refuses the deck all the same."""
        unchanged = [] if self.refused else [self.unchanged]
        return (
            ([str(r) for r in self.report.needed] or unchanged)
            + [f"CAREFUL: {r}" for r in self.report.warnings]
            + [f"GIVE --wide: {r}" for r in self.report.wide]
            + ["REFUSED ALL THE SAME: " + "\n  ".join(self.refused)] * bool(self.refused)
        )


def plain(nam: Path, folder: Path) -> Written:
    """Writes the deck into a folder, with a file of notes, and has the program read what was written. Writes nothing
    where there is a thing that it can't say exactly."""
    if is_simulation(nam):
        deck, report, read = read_simulation(nam)
    else:
        deck, report = read_deck(nam, as_modflow=True)
        read = [nam]
    wrong = report.blocking + report.refusals
    if wrong:
        more = f" (and {len(wrong) - 1} more: `heads-tools inside`)" if len(wrong) > 1 else ""
        raise Problem(f"{wrong[0]}{more}")
    if any(folder.resolve() == path.resolve().parent for path in [nam, *read]):
        raise Problem("the plain deck goes into another folder than the deck's own")
    files = {} if report.needed else one_spelling(nam.resolve(), bool(report.wide))
    name = "p.nam" if files else written_name(deck)
    with whole_folder(folder, is_own=(folder / NOTES).is_file()) as new:
        for each, content in (with_time_unit(files, deck.itmuni) if files else {}).items():
            with whole_file(new / each, binary=True, is_own=True) as file:
                file.write(content)
        if not files:
            write_deck(deck, new)
        told = AS_READ if files else NOT_CHANGED
        written = Written(folder / name, told, report, refused(new / name, bool(report.wide)))
        with whole_file(new / NOTES, is_own=True) as file:
            file.write("\n".join(written.notes()) + "\n")
    return written


PLAIN = """\
Writes the deck so that heads reads it, with each change in plain.txt. Of a MODFLOW 6 simulation (mfsim.nam) whose cells
are confined it writes a MODFLOW-2005 deck, p.nam, with the same equations; what no such deck says exactly is refused
with file, line and cell (heads-tools inside mfsim.nam names all). No theorem speaks of the translation: what heads says
is said of the deck that was written."""


def add(sub: argparse.ArgumentParser) -> None:
    add_words(sub, ("nam", "the model's name file, or mfsim.nam of MODFLOW 6"), ("folder", "the folder to write into"))
    sub.add_argument(
        "--dry",
        type=Path,
        metavar="RUN.HDS",
        help="a run's heads (hds or CSV): cells that it dried (HDRY) get IBOUND 0",
    )
    sub.add_argument(
        "--as-confined",
        action="store_true",
        help="convertible layers get LAYTYP 0 where a run of the written deck shows that they are full",
    )
    sub.description = PLAIN


def do(args: argparse.Namespace, _: list[str], out: IO[str]) -> int:
    written: Written | WrittenWater
    if args.dry or args.as_confined:
        dried = existing(args.dry) if args.dry else None
        written = plain_water(existing(args.nam), args.folder, dried, args.as_confined)
    else:
        written = plain(existing(args.nam), args.folder)
    lines = written.notes()
    say([f"  {line}" for line in lines[:20]] + ([f"  and {len(lines) - 20} more"] if len(lines) > 20 else []), out)
    say([f"written: {written.path}; each change stands in {args.folder / 'plain.txt'}"], out)
    if written.refused:
        say(["the program refuses it all the same:", *("  " + line for line in written.refused)], out)
    return 1 if written.refused else 0
