"""The packages that every deck has: DIS, BAS6, LPF."""
from __future__ import annotations

import re

from ..common.limits import PLAIN, WIDE
from ..common.spelling import number, quoted_words
from ..common.text import Problem
from .array_records import read_array, refuse_count
from .deck import Period
from .parameters import Parameter, array_of_parameters, read_parameters
from .reading import Reading
from .sources import Array, Source
from .thickness import demand_even_thickness, take_dry_cells_out, take_start_as_top

START = "THICKSTRT"
SECTION = "XSECTION"
LPF_TYPES = ("HK", "HANI", "VK", "VANI", "SS", "SY", "VKCB")
OPTIONS_OF_CONVERTIBLE = {
    "CONSTANTCV": "with convertible layers it keeps the vertical conductance of full cells, which isn't read",
    "NOCVCORRECTION": "with convertible layers it leaves vertical conductances uncorrected, which isn't read",
    "NOVFC": "with convertible layers it leaves out a correction of the flow down to a cell that isn't full",
}


def layer_word_refused(name: str, row: list[str], by_start: bool) -> str:
    """Why a word of a layer is refused."""
    layers = " ".join(str(k + 1) for k, x in enumerate(row) if float(x))
    if name == "LAYAVG":
        return f"LAYAVG of layer {layers} isn't 0: only the harmonic mean is read"
    if name == "LAYWET":
        return f"LAYWET of layer {layers} isn't 0: no wetting in confined layers"
    if by_start and all(float(x) <= 0 for x in row):
        return (
            f"LAYTYP of layer {layers} is below 0 with THICKSTRT: its conductances have the thickness STRT less its"
            " bottom, and in a deck its top is the bottom of the layer above. Only layer 1 can be written so"
        )
    return (
        f"LAYTYP of layer {layers} isn't 0: a convertible layer is another model, whose transmissivity changes with the"
        " head. To make it confined is your decision, not a spelling. `heads-tools certify --convertible` makes bounds"
        " from a run's heads, which `heads check --convertible` certifies"
    )


def read_dis(reading: Reading) -> None:
    s, deck = reading.start("DIS"), reading.deck
    line = s.line()
    if line.lstrip().startswith("#"):
        raise Problem("a comment has to begin in the first column (MODFLOW wants it so, too)")
    w = quoted_words(line)
    nlay, nrow, ncol, nper, deck.itmuni, deck.lenuni = (s.integer(x, "a count") for x in w[:6])
    over = WIDE.faults_of(nlay, nrow, ncol) + ["NPER from 1 to 1,000"] * (not 1 <= nper <= 1000)
    if over and not reading.any_size:
        reading.refuse("`heads` takes " + "; ".join(over))
    reading.want_wide(PLAIN.faults_of(nlay, nrow, ncol))
    deck.nlay, deck.nrow, deck.ncol = nlay, nrow, ncol
    deck.laycbd = [s.integer(x, "LAYCBD") for x in s.free_values(nlay)]
    if deck.laycbd[-1]:
        reading.refuse("LAYCBD of the last layer isn't 0: there is no layer below its bed")
    deck.delr, deck.delc, deck.top = (
        read_array(reading, 1, ncol, "DELR"),
        read_array(reading, 1, nrow, "DELC"),
        read_array(reading, nrow, ncol, "the top of layer 1"),
    )
    for k in range(nlay):
        deck.bottom.append(read_array(reading, nrow, ncol, f"the bottom of layer {k + 1}"))
        if deck.laycbd[k]:
            deck.bed_bottom[k] = read_array(reading, nrow, ncol, f"the bottom of the bed below layer {k + 1}")
    periods = [period_of(reading, s, p + 1) for p in range(nper)]
    deck.periods = periods
    if sum(p.nstp for p in periods) > 100_000:
        reading.refuse("more than 100,000 time steps")


def period_of(reading: Reading, s: Source, number: int) -> Period:
    s.due = f"PERLEN NSTP TSMULT of period {number}"
    w = quoted_words(s.line())
    if len(w) < 4 or w[3].upper() not in ("SS", "TR"):
        raise Problem("a period's line is PERLEN NSTP TSMULT and SS or TR")
    period = Period(s.number(w[0]), s.integer(w[1], "NSTP"), s.number(w[2]), w[3].upper() == "SS")
    perlen, mult = float(period.perlen), float(period.tsmult)
    if perlen < 0 or (perlen == 0 and not period.is_steady) or mult <= 0:
        reading.refuse("PERLEN is above 0 in a transient period, TSMULT above 0")
    if not period.is_steady and mult != 1 and not (0.001 <= mult <= 1000 and period.nstp <= 1000):
        reading.refuse(
            "TSMULT lies from 0.001 to 1000, with at most 1,000 steps, where it isn't 1 in a transient period"
        )
    return period


def read_bas6(reading: Reading) -> None:
    s, deck = reading.start("BAS6"), reading.deck
    line, reading.option_line = s.line(is_blank_taken=True), s.at
    options = line.upper().replace(",", " ").split()
    deck.is_free = "FREE" in options
    deck.options["BAS6"] = line if deck.is_free and "CHTOCH" not in options else "FREE"
    if not deck.is_free:
        said = f"the option line `{line.strip()}`" if line.strip() else "the empty option line"
        reading.need(f"{said} written as FREE: the deck is in columns of fixed width")
    if "CHTOCH" in options:
        reading.need("CHTOCH dropped: it only adds flows between constant cells to MODFLOW's budget")
    is_section = SECTION in options
    if is_section and deck.nrow != 1:
        raise Problem(f"{SECTION} (MODFLOW reads the word after a # too) is for one row, and the grid has {deck.nrow}")
    if is_section:
        reading.need(f"{SECTION}: the one array of the section written as an array of each layer")
        deck.options["BAS6"] = "FREE"
    deck.ibound = arrays_of_layers(reading, "IBOUND", is_section, is_whole=True)
    s.due = "HNOFLO"
    deck.options["HNOFLO"] = marker(reading, s, quoted_words(s.line(on_blank=""))[0], "HNOFLO")
    deck.strt = arrays_of_layers(reading, "STRT", is_section)


def arrays_of_layers(reading: Reading, name: str, is_section: bool, is_whole: bool = False) -> list[Array]:
    """The array of each layer. Of a section of one row BAS6 has one array, with a line for each layer."""
    deck = reading.deck
    if not is_section:
        shape, layers = (deck.nrow, deck.ncol), range(1, deck.nlay + 1)
        return [read_array(reading, *shape, f"{name} of layer {layer}", is_whole) for layer in layers]
    whole = read_array(reading, deck.nlay, deck.ncol, f"{name} of the section", is_whole)
    words = whole.words * (1 if len(whole.words) > 1 else deck.nlay * deck.ncol)
    starts = range(0, deck.nlay * deck.ncol, deck.ncol)
    return [
        Array(words[at : at + deck.ncol], whole.factor, (1, deck.ncol), whole.file, whole.line) for at in starts
    ]


def marker(reading: Reading, s: Source, word: str, name: str) -> str:
    """A marker of cells as `heads` reads it: any number does."""
    try:
        number(word)
        return word
    except Problem:
        reading.need(f"{name} {word} written as -999.99: a marker alone")
        return "-999.99"


def read_lpf(reading: Reading) -> None:
    s, deck = reading.start("LPF"), reading.deck
    line, first = s.line(), s.at
    w = quoted_words(line)
    declared = s.integer(w[2], "NPLPF")
    hdry = marker(reading, s, w[1], "HDRY")
    deck.options["LPF"] = line if hdry == w[1] else line.replace(w[1], hdry, 1)
    if "UPW" in deck.options:
        deck.options["LPF"] = f"{w[0]} {hdry} 0"
    elif "STORAGECOEFFICIENT" in (line.partition("#")[2]).upper():
        reading.warn(
            "STORAGECOEFFICIENT stands after a #, and counts all the same: MODFLOW-2005 looks at the whole line,"
            " and so does `heads`"
        )
    by_start = START in (w.upper() for w in quoted_words(line)[3:])
    is_thick_as_start = read_layer_words(reading, line, first, by_start)
    if declared > 0 or is_thick_as_start:
        deck.options["LPF"] = " ".join([w[0], hdry, "0", *(x for x in w[3:] if x.upper() != START)])
    parameters = read_parameters(reading, max(declared, 0), LPF_TYPES, has_layers=True)
    deck.properties = [layer_of(reading, k, by_start, parameters) for k in range(deck.nlay)]
    if is_thick_as_start:
        take_start_as_top(reading, first)
    if "UPW" in deck.options:
        demand_even_thickness(reading)
    else:
        take_dry_cells_out(reading)


def read_layer_words(reading: Reading, line: str, first: int, by_start: bool) -> bool:
    """The five lines of LPF with a word for each layer. Whether layer 1 is confined, and its conductances have the
    thickness of its starting heads."""
    s, deck = reading.now, reading.deck
    rows = deck.layer_words = [[] for _ in range(5)]
    is_thick_as_start = False
    for at, name in enumerate(("LAYTYP", "LAYAVG", "CHANI", "LAYVKA", "LAYWET")):
        s.due = name
        rows[at] = s.free_values(deck.nlay)
        if name != "CHANI" and (wrong := [x for x in rows[at] if not re.fullmatch(r"[+-]?\d+", x)]):
            refuse_count(reading, name, wrong[0], s.at)
        has_other = any(float(x) for x in rows[at])
        is_first_alone = by_start and float(rows[0][0]) < 0 and not any(float(x) for x in rows[0][1:])
        if at == 0 and is_first_alone and not reading.has_convertible:
            is_thick_as_start = True
            rows[0][0] = "0"
        elif at == 0 and reading.has_convertible and has_other:
            refuse_convertible(reading, line, first, rows[at], by_start)
        elif at in (0, 1, 4) and has_other:
            reading.refuse(layer_word_refused(name, rows[at], by_start))
    if any(float(x) for x in rows[4]):
        s.line()
    return is_thick_as_start


def refuse_convertible(reading: Reading, line: str, first: int, row: list[str], by_start: bool) -> None:
    """Refuses what isn't read of convertible layers. `first`: the line of the options."""
    if by_start and any(float(x) < 0 for x in row):
        reading.refuse(layer_word_refused("LAYTYP", [x if float(x) < 0 else "0" for x in row], by_start))
    for word in quoted_words(line)[3:]:
        if text := OPTIONS_OF_CONVERTIBLE.get(word.upper()):
            reading.report.add("refusals", reading.now.name, first, f"{word.upper()}: {text}")
    if "UPW" in reading.deck.options:
        reading.refuse(
            "UPW with LAYTYP other than 0: MODFLOW-NWT weights such layers upstream, which are other equations than"
            " LPF's"
        )


def layer_of(reading: Reading, k: int, by_start: bool, parameters: list[Parameter]) -> dict[str, Array]:
    """The arrays of a layer. `by_start`: LAYTYP below 0 is a confined layer as thick as its starting head says."""
    deck, rows = reading.deck, reading.deck.layer_words
    names = ["HK"] + ["HANI"] * (float(rows[2][k]) <= 0) + ["VKA"]
    laytyp = float(rows[0][k])
    is_convertible = laytyp > 0 or (laytyp < 0 and not by_start)
    names += (["SS"] + ["SY"] * is_convertible) * deck.is_transient
    names += ["VKCB"] * (deck.laycbd[k] != 0) + ["WETDRY"] * (is_convertible and float(rows[4][k]) != 0)
    after = lambda n: f" (after {' '.join(names[:n])})" if n else ""
    out = {}
    for n, name in enumerate(names):
        what, kinds = f"{name} of layer {k + 1}{after(n)}", ("VK", "VANI") if name == "VKA" else (name,)
        if any(it.kind in kinds for it in parameters):
            kind = kinds[-1] if name != "VKA" or float(rows[3][k]) else "VK"
            out[name] = array_by_clusters(reading, parameters, kind, k + 1, what)
        else:
            out[name] = read_array(reading, deck.nrow, deck.ncol, what)
    return out


def array_by_clusters(reading: Reading, parameters: list[Parameter], kind: str, layer: int, what: str) -> Array:
    """The array of a layer that parameters of a type make. Its place in the file has a print code."""
    s = reading.now
    s.due = f"a print code in place of {what}"
    s.integer(quoted_words(s.line())[0], "a print code")
    parts = [(it, [each for each in it.instance([]) if each.layer == layer]) for it in parameters if it.kind == kind]
    return array_of_parameters(reading, parts, what)
