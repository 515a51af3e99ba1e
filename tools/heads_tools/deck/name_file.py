"""The name file of a deck."""
from __future__ import annotations

import re

from ..common.spelling import quoted_words
from ..common.text import Problem
from .deck import KINDS, ONLY_PRINTS, PASSED
from .names import plain_name
from .other_packages import OTHER_PACKAGES, UNKNOWN_PACKAGE
from .reading import Reading
from .sources import Source
from .which_modflow import is_simulation

PARAMETER_FILES = ("MULT", "ZONE", "PVAL")
AS_OTHER = {
    "UPW": ("LPF", "the same equations where every layer is confined and cells side by side are equally thick"),
    "BCF6": ("LPF", "the same equations where every layer is confined, of one or two layers"),
    "ETS": ("EVT", "the same evapotranspiration where it has one straight piece (NETSEG 1)"),
}
BARRIERS = "HFB6"
PRINTABLE = "`heads` takes names of printable ASCII characters without blanks"


def read_names(reading: Reading) -> None:
    deck, name = reading.deck, reading.deck.path.name
    if is_simulation(deck.path):
        raise Problem(f"{name} is of MODFLOW 6: `heads-tools plain mfsim.nam FOLDER` writes its model as a deck")
    source = reading.at = Source(reading.deck.path, name, reading.report)
    if name != plain_name(name):
        reading.report.add("needed", name, 0, f"the name file is written as {plain_name(name)}: {PRINTABLE}")
    for n, line in enumerate(source.lines, 1):
        source.at = n
        if line.startswith("#") or not line.strip(" \t,\r"):
            deck.name_lines.append(line)
            continue
        read_name(reading, line)
    for kind in ("DIS", "BAS6", "LPF"):
        if kind not in deck.files:
            reading.report.add("refusals", name, 0, f"the name file lacks {kind}")


def read_name(reading: Reading, line: str) -> None:
    deck, w = reading.deck, quoted_words(line)
    kind = w[0].upper()
    if kind in ONLY_PRINTS:
        reading.need(f"`{line.strip()[:60]}` dropped: it only prints or compares, or is another program's solver")
        return
    if kind in PASSED:
        if len(w) > 2:
            deck.units[w[1]] = w[2]
        if kind in PARAMETER_FILES and len(w) > 2:
            reading.parameter_files[kind] = w[2]
        deck.name_lines.append(" ".join(w))
        return
    if kind in AS_OTHER:
        other, why = AS_OTHER[kind]
        reading.need(f"{kind} written as {other}: {why}")
        reading.deck.options[kind], kind = "yes", other
    if kind == BARRIERS and len(w) > 2 and not count_of_barriers(reading, w[2]):
        reading.need(f"`{line.strip()[:60]}` dropped: the file has no barrier")
        return
    if kind not in KINDS:
        return reading.refuse(f"{w[0]}: {OTHER_PACKAGES.get(kind, UNKNOWN_PACKAGE)}")
    if len(w) < 3 or not re.fullmatch(r"[+-]?\d+", w[1]):
        return reading.refuse("a line of the name file is `TYPE UNIT FILE`")
    if kind in deck.files:
        return reading.refuse(f"{kind} stands in the name file twice")
    deck.files[kind], deck.units[w[1]] = w[2], w[2]
    if "'" in line or '"' in line:
        reading.need("quotes taken out")
    if re.search(r"[^\x21-\x7e]|:", w[2]):
        reading.need(f"`{w[2]}` written as {plain_name(w[2])}")
    deck.name_lines.append(f"{kind} {w[1]} {plain_name(w[2])}")


def count_of_barriers(reading: Reading, name: str) -> int:
    """How many parameters and barriers a file of HFB6 has."""
    source = reading.open(name)
    source.comments()
    w = quoted_words(source.line())
    return sum(abs(source.integer(word, "a count")) for word in (w[:1] + w[2:3]))


def drop_parameter_files(reading: Reading) -> None:
    """Takes the files of parameters out of the name file, where they are multiplied out."""
    deck = reading.deck
    for kind, file in reading.parameter_files.items():
        reading.report.add("needed", deck.path.name, 0, f"{kind} {file} dropped: what it says is multiplied out")
    deck.name_lines = [line for line in deck.name_lines if line.split(" ")[0].upper() not in PARAMETER_FILES]
