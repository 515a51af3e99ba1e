"""The packages of stresses: lists and arrays by stress period."""
from __future__ import annotations

import re
from dataclasses import replace
from decimal import Decimal

from ..common.limits import PLAIN, WIDE
from ..common.spelling import EXACT, exact, exact_word, quoted_words
from ..common.text import Problem
from .array_records import read_array
from .binary_lists import binary_entries
from .deck import COLUMNS, EVT_ARRAYS, SCALED, Areal, Entry
from .parameters import Parameter, array_of_parameters, named, read_head, read_parameters
from .reading import Reading
from .sources import Array, Source

# The arrays that parameters of RCH and EVT make.
BY_PARAMETERS = ("RECH", "EVTR")
# The package that is EVT where its evapotranspiration has one piece.
ONE_PIECE = "ETS"


def number_like(word: str) -> bool:
    return bool(re.fullmatch(r"[+-]?[0-9.]+([EeDd][+-]?\d+)?", word))


def read_list(reading: Reading, kind: str) -> None:
    s, deck = reading.start(kind), reading.deck
    line, declared = after_declaration(reading, s)
    most = s.integer(reading.fields(s, line, 1)[0], "the maximum count")
    deck.options[kind] = line if deck.is_free else " ".join(reading.fields(s, line, 2))
    if kind == "WEL" and s.at < len(s.lines) and s.lines[s.at].strip().upper().startswith("SPECIFY"):
        s.line()
        if reading.has_convertible and any(float(x) for x in deck.layer_words[0]):
            reading.refuse("SPECIFY is an option of MODFLOW-NWT, which lessens pumping in convertible layers")
        else:
            reading.need("SPECIFY dropped: this option of MODFLOW-NWT acts in convertible layers alone")
    parameters = list_parameters(reading, kind, declared)
    deck.lists[kind], own, had_made = [], [], False
    for period in range(len(deck.periods)):
        w = reading.counts(s, 2, f"ITMP of period {period + 1}")
        count, active = s.integer(w[0], "ITMP"), s.integer(w[1], "NP") if re.fullmatch(r"[+-]?\d+", w[1]) else 0
        if count < 0 and period == 0:
            reading.refuse("ITMP below 0 says `as in the last period`, and there is none before")
        demand_count(reading, count, most)
        s.due = f"the list of period {period + 1}"
        if count >= 0:
            own = entries_of(reading, kind, count)
        made = multiplied(reading, kind, named(reading, parameters, active))
        if made:
            demand_count(reading, len(own) + len(made), most)
        deck.lists[kind].append([*own, *made] if made or had_made or count >= 0 else None)
        had_made = bool(made)


def demand_count(reading: Reading, count: int, most: int) -> None:
    """Says what there is to say of the count of a list's entries."""
    if count > most:
        entries = "entry" if count == 1 else "entries"
        reading.warn(
            f"{count} {entries} where the file's maximum is {most}: MODFLOW-2005 stops, `heads` doesn't compare"
        )
    if count > WIDE.entries:
        raise Problem(f"more than {WIDE.entries:,} entries")
    reading.want_wide([f"at most {PLAIN.entries:,} entries"] * (count > PLAIN.entries))


def after_declaration(reading: Reading, s: Source) -> tuple[str, int]:
    """The line of the maximum count or of the option, after a line PARAMETER; how many parameters that declares."""
    line = s.line()
    w = quoted_words(line)
    if w[0].upper() != "PARAMETER":
        return line, 0
    count = s.integer(w[1], "the count of parameters") if len(w) > 1 else 0
    if not count:
        reading.need("PARAMETER 0 dropped: it declares none")
    return s.line(), count


def list_parameters(reading: Reading, kind: str, count: int) -> list[Parameter]:
    """The definitions of a list's parameters, with the entries of each instance."""
    out = []
    for _ in range(count):
        it, size, instances = read_head(reading, ("Q",) if kind == "WEL" else (kind,))
        for name in instances:
            reading.now.due = f"the entries of the parameter {it.name} {name}".rstrip()
            it.instances[name] = entries_of(reading, kind, size)
        out.append(it)
    return out


def multiplied(reading: Reading, kind: str, found: list[tuple[Parameter, list[Entry]]]) -> list[Entry]:
    """The entries that active parameters make."""
    out = [
        replace(entry, words=scaled_words(reading, kind, entry, it.value)) for it, entries in found for entry in entries
    ]
    for entry in out:
        demand_place(reading, kind, entry)
    return out


def scaled_words(reading: Reading, kind: str, entry: Entry, factor: Decimal) -> list[str]:
    """The numbers of an entry, of which those that its package scales are multiplied by a factor."""
    out = list(entry.words)
    for at in SCALED[kind]:
        try:
            out[at] = exact_word(EXACT.multiply(exact(out[at]), factor), COLUMNS[kind][at])
        except Problem as error:
            reading.report.add("refusals", entry.file, entry.line, str(error))
    return out


def entries_of(reading: Reading, kind: str, count: int) -> list[Entry]:
    source, factor, columns, due = reading.now, "", len(COLUMNS[kind]), reading.now.due
    out: list[Entry] = []
    while len(out) < count:
        source.due = f"{due}, entry {len(out) + 1} of {count}"
        line = source.line(on_blank="a blank line in a list: `heads` skips it, MODFLOW-2005 stops there")
        w = quoted_words(line)
        first = w[0].upper()
        if first in ("OPEN/CLOSE", "EXTERNAL") and not out:
            if any(x.upper() == "(BINARY)" for x in w[2:]):
                out = binary_list(reading, kind, w, count, factor)
                continue
            source = reading.open(w[1]) if first == "OPEN/CLOSE" else reading.unit(w[1])
            reading.need(f"{first}: list of {source.name} put in place")
        elif first == "SFAC" and not out:
            factor = source.number(w[1])
            reading.need(f"SFAC {w[1]} multiplied out")
        else:
            out.append(entry_of(reading, kind, source, line, columns, factor))
    return out


def binary_list(reading: Reading, kind: str, w: list[str], count: int, factor: str) -> list[Entry]:
    """The entries of a binary file that a list names, by its name or its unit."""
    is_named = w[0].upper() == "OPEN/CLOSE"
    name = w[1] if is_named else reading.deck.units.get(w[1], w[1])
    found = binary_entries(reading, kind, name, count, is_named)
    for entry in found:
        demand_place(reading, kind, entry)
    return [replace(e, words=scaled_words(reading, kind, e, exact(factor))) for e in found] if factor else found


def demand_place(reading: Reading, kind: str, entry: Entry) -> None:
    """Refuses an entry outside of the grid, or with a conductance below 0."""
    deck = reading.deck
    if not all(1 <= x <= n for x, n in zip(entry.cell, (deck.nlay, deck.nrow, deck.ncol))):
        reading.report.add(
            "refusals",
            entry.file,
            entry.line,
            f"layer, row, column {entry.cell} lie outside the grid of {deck.nlay}, {deck.nrow}, {deck.ncol}",
        )
    if kind in ("RIV", "DRN", "GHB") and exact(entry.words[1]) < 0:
        reading.report.add("refusals", entry.file, entry.line, "Cond is below 0")


def entry_of(reading: Reading, kind: str, source: Source, line: str, columns: int, factor: str) -> Entry:
    deck = reading.deck
    w = reading.fields(source, line, 3 + columns)
    if deck.is_free and len(quoted_words(line)) < 3 + columns:
        reading.report.add(
            "needed", source.name, source.at, "missing numbers of an entry written as 0, as MODFLOW-2005 reads them"
        )
    layer, row, column = (source.integer(x, "a layer, row or column") for x in w[:3])
    values = [source.number(x) for x in w[3:]]
    rest = quoted_words(line)[3 + columns :] if deck.is_free else []
    if rest and re.search(r"\d,\d", line) and number_like(rest[0]) and "AUX" not in deck.options[kind].upper():
        reading.report.add(
            "warnings",
            source.name,
            source.at,
            (
                f"`{line.strip()[:60]}` has {len(rest)} more than the {3 + columns} numbers of an entry: "
                "a decimal comma? `heads` and MODFLOW-2005 take a comma as a blank"
            ),
        )
    entry = Entry((layer, row, column), values, source.name, source.at)
    if factor:
        entry = replace(entry, words=scaled_words(reading, kind, entry, exact(factor)))
    demand_place(reading, kind, entry)
    return entry


def read_rch(reading: Reading) -> None:
    read_areal(reading, "RCH", ("RECH",), "IRCH")


def read_evt(reading: Reading) -> None:
    read_areal(reading, "EVT", EVT_ARRAYS, "IEVT")


def read_areal(reading: Reading, kind: str, names: tuple[str, ...], layers: str) -> None:
    s, deck = reading.start(kind), reading.deck
    line, declared = after_declaration(reading, s)
    types: tuple[str, ...] = (kind,)
    if kind == "EVT" and ONE_PIECE in deck.options:
        line, declared, types = segments_of(reading, s, line)
    option = s.integer(reading.fields(s, line, 1)[0], "the option")
    if option not in (1, 2, 3):
        raise Problem(f"the option is {option}; 1, 2 or 3 are read")
    deck.options[kind] = line if deck.is_free else " ".join(reading.fields(s, line, 2))
    areal = deck.areal[kind] = Areal(option, line=s.at)
    parameters = read_parameters(reading, declared, types, has_layers=False)
    names += (layers,) * (option == 2)
    for period in range(len(deck.periods)):
        flags = [
            s.integer(x, "a flag") for x in reading.counts(s, len(names), f"the line of flags of period {period + 1}")
        ]
        if period == 0 and min(flags) < 0:
            reading.refuse("a flag below 0 says `as in the last period`, and there is none before")
        arrays = {}
        for at, (name, flag) in enumerate(zip(names, flags)):
            what = f"{name} of period {period + 1}"
            if flag >= 0 and parameters and name in BY_PARAMETERS:
                arrays[name], flags[at] = array_by_names(reading, parameters, flag, what), 1
            elif flag >= 0:
                arrays[name] = read_array(reading, deck.nrow, deck.ncol, what, name == layers)
        areal.periods.append((flags, arrays))
        if layers in arrays and (arrays[layers].floats() == 0).any():
            reading.warn(
                f"{layers} is 0 in a column: `heads` reads `no layer`; MODFLOW-2005 stops there, or passes over it"
                " in newer versions"
            )


def segments_of(reading: Reading, s: Source, line: str) -> tuple[str, int, tuple[str, ...]]:
    """ETS with one segment as EVT: the line of its option, the count of its parameters and their type."""
    w = reading.fields(s, line, 4)
    if s.integer(w[3], "NETSEG") > 1:
        raise Problem(f"NETSEG is {w[3]}: only evapotranspiration of one straight piece (1) is read")
    return " ".join(w[:2]), s.integer(w[2], "NPETS"), (ONE_PIECE,)


def array_by_names(reading: Reading, parameters: list[Parameter], count: int, what: str) -> Array:
    """The array that the parameters make which a period names."""
    if count == 0:
        raise Problem(f"{what}: the file has parameters, and the period names none (MODFLOW-2005 stops here, too)")
    return array_of_parameters(reading, named(reading, parameters, count), what)
