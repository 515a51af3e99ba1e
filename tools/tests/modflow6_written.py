"""A deck of MODFLOW-2005 whose layers are confined, written as a MODFLOW 6 simulation: number by number, in the
spelling that MODFLOW 6's own documents show."""
from heads_tools.deck.packages import read_deck
from heads_tools.deck.sources import Array

ORDER = {"WEL": 1, "RIV": 3, "DRN": 2, "GHB": 2}
AREAL = {
    "RCH": {"RECH": "RECHARGE", "IRCH": "IRCH"},
    "EVT": {"SURF": "SURFACE", "EVTR": "RATE", "EXDP": "DEPTH", "IEVT": "IEVT"},
}
TIMES = {0: "UNKNOWN", 1: "SECONDS", 2: "MINUTES", 3: "HOURS", 4: "DAYS", 5: "YEARS"}
LENGTHS = {0: "UNKNOWN", 1: "FEET", 2: "METERS", 3: "CENTIMETERS"}


def block(name, *lines):
    return [f"BEGIN {name}", *("  " + line for line in lines), f"END {name}", ""]


def record(array):
    """The lines of an array's values."""
    if array.is_constant:
        return [f"  CONSTANT {array.words[0]}"]
    cols = array.shape[1]
    rows = [array.words[at : at + cols] for at in range(0, len(array.words), cols)]
    factor = "" if array.factor in ("0", "1") else f" FACTOR {array.factor}"
    return [f"  INTERNAL{factor}", *("    " + " ".join(row) for row in rows)]


def layered(name, arrays):
    return [f"{name} LAYERED", *(line for array in arrays for line in record(array))]


def active(ibound):
    return Array([word.lstrip("-") for word in ibound.words], ibound.factor, ibound.shape)


def grid_files(deck):
    dimensions = block("DIMENSIONS", f"NLAY {deck.nlay}", f"NROW {deck.nrow}", f"NCOL {deck.ncol}")
    sizes = ("DELR", deck.delr), ("DELC", deck.delc), ("TOP", deck.top)
    data = [line for name, array in sizes for line in (name, *record(array))]
    data += layered("BOTM", deck.bottom) + layered("IDOMAIN", [active(a) for a in deck.ibound])
    units = block("OPTIONS", f"LENGTH_UNITS {LENGTHS[deck.lenuni]}")
    yield "m.dis", units + dimensions + block("GRIDDATA", *data)
    yield "m.ic", block("GRIDDATA", *layered("STRT", deck.strt))
    _, _, chani, layvka, _ = deck.layer_words
    assert all(float(x) == 1 for x in chani) and all(x == "0" for x in layvka)
    column = lambda name: [layer[name] for layer in deck.properties]
    conductivities = ["ICELLTYPE", "  CONSTANT 0", *layered("K", column("HK")), *layered("K33", column("VKA"))]
    yield "m.npf", block("GRIDDATA", *conductivities)


def storage_lines(deck):
    option = ["STORAGECOEFFICIENT"] if "STORAGECOEFFICIENT" in deck.options["LPF"].upper() else []
    storage = layered("SS", [layer["SS"] for layer in deck.properties])
    states = [
        line
        for p, period in enumerate(deck.periods, 1)
        for line in block(f"PERIOD {p}", "STEADY-STATE" if period.is_steady else "TRANSIENT")
    ]
    return block("OPTIONS", *option) + block("GRIDDATA", "ICONVERT", "  CONSTANT 0", *storage) + states


def list_lines(deck, kind):
    most = max(len(entries or []) for entries in deck.lists[kind])
    out = block("OPTIONS", "PRINT_INPUT", "SAVE_FLOWS") + block("DIMENSIONS", f"MAXBOUND {most}")
    for p, entries in enumerate(deck.lists[kind], 1):
        if entries is not None:
            out += block(f"PERIOD {p}", *(" ".join([*map(str, e.cell), *e.words[: ORDER[kind]]]) for e in entries))
    return out


def constant_lines(deck):
    """The cells of constant head, whose IBOUND is below 0: a list for all periods."""
    assert "CHD" not in deck.lists
    cells = [
        (k + 1, int(i) + 1, int(j) + 1, strt.exact(int(i) * deck.ncol + int(j)))
        for k, (ibound, strt) in enumerate(zip(deck.ibound, deck.strt))
        for i, j in zip(*(ibound.floats() < 0).nonzero())
    ]
    lines = block("PERIOD 1", *(" ".join(map(str, cell)) for cell in cells))
    return block("DIMENSIONS", f"MAXBOUND {len(cells)}") + lines if cells else []


def areal_lines(deck, kind):
    out = block("OPTIONS", "READASARRAYS")
    for p, (_, arrays) in enumerate(deck.areal[kind].periods, 1):
        names = sorted(arrays, key=lambda name: name not in ("IRCH", "IEVT"))
        lines = [line for name in names for line in (AREAL[kind][name], *record(arrays[name]))]
        out += block(f"PERIOD {p}", *lines) if lines else []
    return out


def written_as_modflow6(nam, folder):
    deck, report = read_deck(nam)
    assert not report.refusals
    files = dict(grid_files(deck))
    if deck.is_transient:
        files["m.sto"] = storage_lines(deck)
    files |= {f"m.{kind.lower()}": list_lines(deck, kind) for kind in deck.lists}
    files |= {f"m.{kind.lower()}": areal_lines(deck, kind) for kind in deck.areal}
    files |= {"m.chd": lines} if (lines := constant_lines(deck)) else {}
    packages = [f"{name[2:].upper()}6 {name}" for name in files]
    periods = [f"{p.perlen} {p.nstp} {p.tsmult}" for p in deck.periods]
    files["m.tdis"] = (
        block("OPTIONS", f"TIME_UNITS {TIMES[deck.itmuni]}")
        + block("DIMENSIONS", f"NPER {len(periods)}")
        + block("PERIODDATA", *periods)
    )
    files["m.nam"] = block("PACKAGES", *packages)
    files["mfsim.nam"] = (
        block("TIMING", "TDIS6 m.tdis") + block("MODELS", "GWF6 m.nam m") + block("SOLUTIONGROUP 1", "IMS6 m.ims m")
    )
    files["mfsim.nam"][-2] = "END SOLUTIONGROUP 1"
    folder.mkdir()
    for name, lines in files.items():
        (folder / name).write_text("\n".join(lines) + "\n")
