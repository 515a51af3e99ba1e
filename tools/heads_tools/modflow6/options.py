"""The options of MODFLOW 6's packages: those that are used, those that change no equation of confined cells, and why
others are refused."""
from __future__ import annotations

from .blocks import File, Line

# They print, save or describe.
PRINTS = {
    "LIST", "PRINT_INPUT", "PRINT_FLOWS", "SAVE_FLOWS", "PRINT_OPTION", "BOUNDNAMES", "NOGRB", "GRB6",
    "LENGTH_UNITS", "TIME_UNITS", "EXPORT_ARRAY_ASCII", "EXPORT_ARRAY_NETCDF", "CONTINUE", "NOCHECK",
    "MEMORY_PRINT_OPTION", "MAXERRORS", "PROFILE_OPTION", "SAVE_SPECIFIC_DISCHARGE", "SAVE_SATURATION",
    "AUXILIARY", "AUTO_FLOW_REDUCE_CSV",
}  # fmt: skip
CONVERTIBLE = "dropped: it acts in convertible cells alone, and every cell is confined"
PLACES = {
    "XORIGIN": "xll",
    "YORIGIN": "yll",
    "ANGROT": "rotation",
    "CRS": "crs",
    "START_DATE_TIME": "start_datetime",
}
PLACED = "written as a comment of the deck's name file, which `heads-tools export` and `observe` take"
# They act in convertible cells alone, or in no equation.
DROPPED = {
    name: CONVERTIBLE
    for name in ("VARIABLECV", "PERCHED", "REWET", "AUTO_FLOW_REDUCE", "THICKSTRT", "SS_CONFINED_ONLY")
} | {name: PLACED for name in PLACES} | {
    "OBS6": "OBS6 dropped: it says what is observed alone",
    "NEWTON": "NEWTON dropped: the same equations where every cell is confined",
    "FIXED_CELL": "FIXED_CELL dropped: no cell goes dry where every cell is confined",
}
REFUSED = {
    "ATS6": "lets MODFLOW 6 choose the time steps as it runs: its equations aren't fixed by the files",
    "XT3D": "makes other equations (XT3D)",
    "ALTERNATIVE_CELL_AVERAGING": "makes other conductances: only the harmonic mean is read",
    "TVK6": "changes conductivities in time",
    "TVS6": "changes storage in time",
    "TS6": "reads numbers from time series: write the numbers of each period",
    "TAS6": "reads arrays from time series: write the arrays of each period",
    "AUXDEPTHNAME": "makes a drain whose conductance changes with the head",
    "SURF_RATE_SPECIFIED": "gives evapotranspiration another rate at the surface",
    "MOVER": "moves water between packages",
    "HPC6": "spreads the simulation over several programs",
}


def options_of(file: File, used: tuple[str, ...] = ()) -> dict[str, Line]:
    """The options of a file. Each that isn't known is a refusal; `used` are those that the caller looks at."""
    out: dict[str, Line] = {}
    for line in file.lines("OPTIONS"):
        name = line.words[0].upper()
        if name in out and name in ("AUXILIARY", "AUXMULTNAME"):
            file.folder.add(line.fault(f"the option {name} stands here once more"))
        out[name] = line
        if name in used or name in PRINTS:
            continue
        if name in DROPPED:
            text = DROPPED[name]
            if name in PLACES:
                file.folder.place[PLACES[name]] = " ".join(line.words[1:])
            file.folder.note(line, text if text.startswith(name) else f"{name} {text}")
        else:
            file.folder.add(line.fault(f"the option {name} {REFUSED.get(name, 'is not known here, so it is refused')}"))
    return out
