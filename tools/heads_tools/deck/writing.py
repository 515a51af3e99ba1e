"""Writes a deck in the spelling that `heads` reads."""
from __future__ import annotations

from pathlib import Path

from ..common.whole_files import whole_file
from .deck import EVT_ARRAYS, KINDS, Deck, Entry
from .names import plain_name

NOTES = "plain.txt"


def write_deck(deck: Deck, folder: Path) -> None:
    texts = {plain_name(deck.files[kind]): package_lines(deck, kind) for kind in KINDS if kind in deck.files}
    texts[written_name(deck)] = [line.rstrip() for line in deck.name_lines]
    for name, lines in texts.items():
        with whole_file(folder / name, binary=True, is_own=True) as file:
            file.write(("\n".join(lines) + "\n").encode("latin-1", "replace"))


def written_name(deck: Deck) -> str:
    """The name of a written deck's name file."""
    return plain_name(deck.path.name)


def package_lines(deck: Deck, kind: str) -> list[str]:
    """The lines of a package's file."""
    if kind in deck.lists:
        lines = list_lines(deck, kind)
    elif kind in deck.areal:
        lines = areal_lines(deck, kind)
    else:
        lines = {"DIS": dis_lines, "BAS6": bas_lines, "LPF": lpf_lines}[kind](deck)
    return deck.comments.get(kind, []) + lines


def dis_lines(deck: Deck) -> list[str]:
    out = [
        f"{deck.nlay} {deck.nrow} {deck.ncol} {len(deck.periods)} {deck.itmuni} {deck.lenuni}",
        " ".join(map(str, deck.laycbd)),
    ]
    for array in (deck.delr, deck.delc, deck.top):
        out += array.lines()
    for k, bottom in enumerate(deck.bottom):
        out += bottom.lines() + (deck.bed_bottom[k].lines() if k in deck.bed_bottom else [])
    return out + [f"{p.perlen} {p.nstp} {p.tsmult} {'SS' if p.is_steady else 'TR'}" for p in deck.periods]


def bas_lines(deck: Deck) -> list[str]:
    out = [deck.options["BAS6"]]
    for array in deck.ibound:
        out += array.lines()
    out.append("-999.99")
    for array in deck.strt:
        out += array.lines()
    return out


def lpf_lines(deck: Deck) -> list[str]:
    out = [deck.options["LPF"]] + [" ".join(row) for row in deck.layer_words]
    for layer in deck.properties:
        for array in layer.values():
            out += array.lines()
    return out


def list_lines(deck: Deck, kind: str) -> list[str]:
    out = [deck.options[kind]]
    for entries in deck.lists[kind]:
        out.append("-1 0" if entries is None else f"{len(entries)} 0")
        out += [entry_line(e) for e in entries or []]
    return out


def entry_line(entry: Entry) -> str:
    return " ".join([*map(str, entry.cell), *entry.words])


def areal_lines(deck: Deck, kind: str) -> list[str]:
    areal = deck.areal[kind]
    names = (("RECH",) if kind == "RCH" else EVT_ARRAYS) + (
        ("IRCH" if kind == "RCH" else "IEVT",) if areal.option == 2 else ()
    )
    out = [deck.options[kind]]
    for flags, arrays in areal.periods:
        out.append(" ".join(map(str, flags)))
        for name in names:
            if name in arrays:
                out += arrays[name].lines()
    return out
