"""Reads a deck in any spelling of the MODFLOW family, with all that is remarkable in it and not the first fault
alone."""
from __future__ import annotations

from pathlib import Path

from ..common.text import Problem
from .bcf_file import read_bcf
from .deck import COLUMNS, KINDS, Deck
from .grid_files import read_bas6, read_dis, read_lpf
from .name_file import drop_parameter_files, read_names
from .reading import Reading
from .sources import Report
from .stress_files import read_evt, read_list, read_rch


def read_deck(
    nam: str | Path,
    as_modflow: bool = False,
    any_size: bool = False,
    others: dict[str, str] | None = None,
    has_convertible: bool = False,
) -> tuple[Deck, Report]:
    """Reads all files of a name file. What can't be read stands under the report's refusals. A blank line where
    counts or flags are due is passed over, as `heads` does, or read `as_modflow`, which takes it as zeros.
    `any_size`: more cells than the program takes with --wide are no refusal. `others`: files of packages that are read
    in place of the deck's own. `has_convertible`: LAYTYP other than 0 is read, too."""
    reading = Reading(Path(nam), as_modflow, any_size, has_convertible)
    read_names(reading)
    reading.deck.files.update(others or {})
    for kind in KINDS:
        if kind in reading.deck.files:
            try:
                read_package(reading, kind)
            except Problem as error:
                reading.refuse_text(kind, str(error))
            except IndexError:
                due = f": {reading.at.due}" if reading.at and reading.at.due else ""
                reading.refuse_text(kind, f"the line has too few words for what is due{due}")
            except ValueError as error:
                reading.refuse_text(kind, f"can't be read: {error}")
            if kind == "DIS" and not reading.deck.periods:
                break
    if reading.has_parameters:
        drop_parameter_files(reading)
    look_for_free_lists(reading)
    return reading.deck, reading.report


def read_package(reading: Reading, kind: str) -> None:
    flow = read_bcf if "BCF6" in reading.deck.options else read_lpf
    read = {"DIS": read_dis, "BAS6": read_bas6, "LPF": flow, "RCH": read_rch, "EVT": read_evt}.get(kind)
    if read:
        read(reading)
    else:
        read_list(reading, kind)


def look_for_free_lists(reading: Reading) -> None:
    """Where lists of a deck without FREE don't fit its columns: says first that FREE may have been left out."""
    deck, lists = reading.deck, {reading.deck.files[kind] for kind in COLUMNS if kind in reading.deck.files}
    if not deck.is_free and any(r.file in lists for r in reading.report.refusals):
        reading.report.add(
            "refusals",
            deck.files["BAS6"],
            reading.option_line,
            "the option line has no FREE, so lists are read by columns of ten, as MODFLOW-2005 does, and some don't"
            " fit them. If they are free, write FREE into this line",
            is_first=True,
        )
