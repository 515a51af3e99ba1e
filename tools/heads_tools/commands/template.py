"""A deck with templates of its packages, for PEST and for `ensemble`."""
from __future__ import annotations

import argparse
from typing import IO

from ..common.text import Problem
from ..common.whole_files import whole_file, whole_folder
from ..deck.names import plain_name
from ..deck.packages import read_deck
from ..deck.templates import ENDING, template_of
from ..deck.writing import write_deck, written_name
from .shared import existing, say
from .words import NAM, add_words

NOTES = "template.txt"
VALUES = "values.csv"
TEMPLATE = """\
Writes the deck into FOLDER in the spelling that heads reads, and beside it m.lpf.tpl, m.rch.tpl and m.evt.tpl:
templates in the form of PEST. The factor of each array of HK, HANI, VKA, SS, VKCB (by layer: @hk_1@), RECH and EVTR (by
stress period: @rech_1@) is a mark, or its value where it is constant. values.csv has the marks with the deck's own
numbers: a table for `heads-tools ensemble`."""


def add(sub: argparse.ArgumentParser) -> None:
    add_words(sub, NAM, ("folder", "the folder to write into"))
    sub.description = TEMPLATE


def do(args: argparse.Namespace, _: list[str], out: IO[str]) -> int:
    nam = existing(args.nam)
    deck, report = read_deck(nam, as_modflow=True)
    if wrong := report.blocking + report.refusals:
        raise Problem(f"{wrong[0]}")
    if args.folder.resolve() == nam.parent:
        raise Problem("the deck with templates goes into another folder than the deck's own")
    kinds = ["LPF", *(kind for kind in ("RCH", "EVT") if kind in deck.areal)]
    values: dict[str, str] = {}
    with whole_folder(args.folder, is_own=(args.folder / NOTES).is_file()) as folder:
        write_deck(deck, folder)
        names = []
        for kind in kinds:
            lines, found = template_of(deck, kind)
            names.append(plain_name(deck.files[kind]) + ENDING)
            with whole_file(folder / names[-1], is_own=True) as file:
                file.write("\n".join(lines) + "\n")
            values |= found
        with whole_file(folder / VALUES, is_own=True) as file:
            file.write(",".join(["name", *values]) + "\n" + ",".join(["now", *values.values()]) + "\n")
        said = [*map(str, report.needed), f"templates: {' '.join(names)}; marks: {' '.join(values)}"]
        with whole_file(folder / NOTES, is_own=True) as file:
            file.write("\n".join(said) + "\n")
    written = args.folder / written_name(deck)
    tpl = " ".join(f"--tpl {args.folder / name}" for name in names)
    example = f"heads-tools ensemble {written} {args.folder / VALUES} SAMPLES {tpl} --cell K,I,J"
    say([said[-1], f"written: {written}", f"many samples: {example}"], out)
    return 0
