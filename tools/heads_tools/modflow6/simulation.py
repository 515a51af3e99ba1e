"""mfsim.nam, TDIS and the name file of the model: which files there are, and the stress periods."""
from __future__ import annotations

from dataclasses import dataclass, field

from ..common.text import Problem, counted
from ..deck.deck import Period
from .blocks import File, Folder, Line
from .numbers import number_word, value_of
from .options import options_of

# The words of TIME_UNITS and LENGTH_UNITS with their numbers in DIS.
TIME_UNITS = {"UNKNOWN": 0, "SECONDS": 1, "MINUTES": 2, "HOURS": 3, "DAYS": 4, "YEARS": 5}
LENGTH_UNITS = {"UNKNOWN": 0, "FEET": 1, "METERS": 2, "CENTIMETERS": 3}
READ = ("DIS6", "IC6", "NPF6", "STO6", "CHD6", "WEL6", "RIV6", "DRN6", "GHB6", "RCH6", "EVT6")
DUE = ("DIS6", "IC6", "NPF6")
IGNORED = {
    "OC6": "OC6 dropped: it says what is saved and printed alone",
    "OBS6": "OBS6 dropped: it says what is observed alone",
}
REFUSED = {
    "DISV6": "a grid of vertices is no grid of rows and columns",
    "DISV2D6": "a grid of vertices is no grid of rows and columns",
    "DISU6": "an unstructured grid is no grid of rows and columns",
    "HFB6": "barriers aren't read by `heads`",
    "MVR6": "moves water between packages",
    "GNC6": "changes the flows between cells",
    "BUY6": "makes flow depend on density",
    "VSC6": "makes conductances depend on viscosity",
    "CSUB6": "compaction is another storage",
    "SFR6": "streams aren't read",
    "LAK6": "lakes aren't read",
    "MAW6": "wells through several layers aren't read",
    "UZF6": "the unsaturated zone isn't read",
    "API6": "another program changes the equations",
    "SWI6": "another liquid changes the equations",
}


@dataclass
class Simulation:
    """What the files of the simulation say: the files of packages by type, in their order, and the stress periods with
    their lines of TDIS; which of them are steady STO says."""

    folder: Folder
    packages: dict[str, list[Line]] = field(default_factory=dict)
    periods: list[Period] = field(default_factory=list)
    period_lines: list[Line] = field(default_factory=list)
    itmuni: int = 0

    def file(self, line: Line, taken: tuple[str, ...]) -> File:
        """The file of a package, by the line that names it."""
        return File(self.folder, line.file_word(1), taken, line)


def read_simulation_file(folder: Folder, name: str) -> Simulation:
    """mfsim.nam with TDIS and the name file of its one model."""
    file = File(folder, name, ("OPTIONS", "TIMING", "MODELS", "EXCHANGES", "SOLUTIONGROUP", "PACKAGES"))
    out = Simulation(folder)
    if packages := file.begin("PACKAGES"):
        raise packages.fault("this is the name file of a model: give that of the simulation, mfsim.nam")
    if file.block("TIMING") is None or file.block("MODELS") is None:
        raise file.fault("it has no blocks TIMING and MODELS: give the simulation's name file, mfsim.nam")
    options_of(file)
    for line in file.lines("EXCHANGES"):
        folder.add(line.fault("exchanges join models; one model without exchanges is read"))
    for block in (b for b in file.blocks if b.name == "SOLUTIONGROUP"):
        folder.note(block.begin, "SOLUTIONGROUP dropped: it says how MODFLOW 6 solves the equations")
    tdis = [line for line in file.lines("TIMING") if line.words[0].upper() == "TDIS6"]
    if len(tdis) != 1:
        raise file.fault("the block TIMING names one file TDIS6")
    folder.tried(read_tdis, out, tdis[0])
    models = file.lines("MODELS")
    for line in models:
        if line.words[0].upper() != "GWF6":
            folder.add(line.fault(f"a model {line.words[0]}: one model of groundwater flow (GWF6) alone is read"))
    flow = [line for line in models if line.words[0].upper() == "GWF6"]
    if len(flow) != 1:
        raise file.fault(f"{len(flow)} models GWF6; one is read")
    read_names(out, flow[0])
    return out


def read_tdis(simulation: Simulation, at: Line) -> None:
    """The stress periods."""
    file = simulation.file(at, ("OPTIONS", "DIMENSIONS", "PERIODDATA"))
    options = options_of(file, ("TIME_UNITS",))
    if unit := options.get("TIME_UNITS"):
        simulation.itmuni = unit_of(simulation.folder, unit, TIME_UNITS)
    count, lines = file.dimension("NPER"), file.lines("PERIODDATA")
    if len(lines) != count:
        text = f"NPER is {count}, and PERIODDATA has {counted(len(lines), 'line')}"
        raise (file.begin("PERIODDATA") or file).fault(text)
    simulation.period_lines = lines
    for line in lines:
        try:
            perlen, tsmult = (number_word(line.word(at, name)) for at, name in ((0, "PERLEN"), (2, "TSMULT")))
        except Problem as error:
            raise line.fault(str(error)) from None
        nstp = line.whole(1, "NSTP")
        if nstp < 1 or value_of(perlen) < 0 or value_of(tsmult) <= 0:
            simulation.folder.add(line.fault("PERLEN isn't below 0, NSTP is 1 or more, TSMULT above 0"))
        simulation.periods.append(Period(perlen, nstp, tsmult, True))
    if len(lines) > 1000 or sum(p.nstp for p in simulation.periods) > 100_000:
        simulation.folder.add(file.fault("more than 1,000 periods or 100,000 time steps"))


def unit_of(folder: Folder, line: Line, known: dict[str, int]) -> int:
    """The number of a unit in DIS; units aren't converted."""
    word = line.word(1, "a unit").upper()
    if word not in known:
        folder.note(line, f"{line.words[0].upper()} {word} written as 0, an unknown unit: no number is converted")
    return known.get(word, 0)


def read_names(simulation: Simulation, at: Line) -> None:
    """The packages of the model."""
    file, folder = simulation.file(at, ("OPTIONS", "PACKAGES")), simulation.folder
    options_of(file)
    for line in file.lines("PACKAGES"):
        kind = line.words[0].upper()
        if kind in IGNORED:
            folder.note(line, IGNORED[kind])
        elif kind not in READ:
            folder.add(line.fault(f"{kind}: {REFUSED.get(kind, 'a package that is not known here')}"))
        elif kind in simulation.packages and kind in (*DUE, "STO6"):
            folder.add(line.fault(f"{kind} stands in the name file twice"))
        else:
            simulation.packages.setdefault(kind, []).append(line)
    for kind in DUE:
        if kind not in simulation.packages:
            folder.add(file.fault(f"the name file lacks {kind}"))
