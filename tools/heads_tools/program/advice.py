"""What the codes of `heads` mean, in sentences for people."""

REFUSALS = {
    1: "There is no file {file}.",
    2: "{file} has more than 67,108,864 bytes, or with --wide more than 1,073,741,824.",
    3: "A file name has 1 to 255 printable ASCII characters without blanks.",
    4: "A line of the name file is `TYPE UNIT FILE`; this one lacks a word, or its unit is no whole number.",
    5: "This package stands in the name file twice. MODFLOW reads one of each.",
    6: "This package isn't read.",
    7: "The name file lacks DIS, BAS6 or LPF. BCF6 of one or two layers is written as LPF by `heads-tools plain`.",
    8: "The file ends where more is due: too few rows, layers, periods or list entries for the counts in DIS.",
    9: "A number was due here, and this word is none.",
    10: "A number has more than 18 digits.",
    11: "This form of input isn't read.",
    12: "A count, a width or a period is out of range.",
    13: "An array begins with CONSTANT, INTERNAL or OPEN/CLOSE.",
    14: "The cell's top isn't above its bottom, or the bed's.",
    15: "A value is out of range.",
    16: "Layer, row or column lies outside the grid.",
    17: (
        "The list has more entries than are read (65,536 of a period, 4,194,304 with --wide; 1,000 names of a batch)."
    ),
    18: "A negative count means `as in the last period`, and there is none before.",
    19: "A head is past 4,000,000,000: a marker such as 1E+30 in an active cell?",
    20: "The listing isn't of the form due at this line for this model and these digits.",
    28: "The two decks aren't of one shape: here is the first difference that isn't a number of a stress.",
}
NO_BOUNDS = {
    21: "Two neighbouring cells are joined by less than one unit of conductance (10^-{digits}).",
    22: (
        "The conductances at this cell (branches, storage, rivers, drains, general heads, evapotranspiration) sum to"
        " 2^60 units of 10^-{digits} or more."
    ),
    23: "A flow is too great for --digits {digits}.",
    24: (
        "Nothing holds the heads of this cell's group of cells from below: it touches no constant head, general head or"
        " storage, and its rivers and drains give less than its wells and evapotranspiration take."
    ),
    25: (
        "Nothing holds the heads of this cell's group of cells from above: it touches no constant head, general head,"
        " river, drain or storage."
    ),
    26: (
        "The floor under the heads lies below -4,000,000,000: a very small conductance stands on the way to the next"
        " known head, and the floor sums what all cells lack. With --wide the settled lower heads fail the test of a"
        " certificate at such a cell."
    ),
    27: (
        "The ceiling over the heads lies above 4,000,000,000: a very small conductance stands on the way to the next"
        " known head, and the ceiling sums what all cells have too much. With --wide the settled upper heads fail the"
        " test of a certificate at such a cell."
    ),
}
REMEDIES = {
    2: "Run with --wide, or split the file: arrays may stand in files of their own (OPEN/CLOSE).",
    4: "Write the line so, or begin it with # to make it a comment.",
    5: "Take one of the two lines out, or make one file of both.",
    7: "Look at the name file: each package has a line `TYPE UNIT FILE`.",
    8: "Count the lines after the last item that was read; an array with too few values takes those of the next.",
    16: (
        "Count layers, rows and columns from 1; NLAY, NROW and NCOL stand in the first line of DIS. (FloPy counts from"
        " 0 in Python and from 1 in files.)"
    ),
    19: "Write a head within the model's range; for a cell without flow write IBOUND 0.",
    14: "Raise the top or lower the bottom there, or make the cell inactive (IBOUND 0).",
    15: (
        "HK, HANI, VKA and VKCB are above 0 in active cells, SS, Cond and EVTR at least 0, EXDP above 0 where EVTR is;"
        " a CHD cell stands in a list once. Of HK 0 in a single layer MODFLOW makes the cell inactive, and"
        " `heads-tools plain` writes IBOUND 0 there. A zone number lies from 0 to 999."
    ),
    17: (
        "Run with --wide, which reads 4,194,304 entries; or merge entries of one cell (flows add; conductances to one"
        " level add)."
    ),
    18: "Write the list or the array of the first period out.",
    20: (
        "A listing is checked with the --digits that it was made with (12 where they are left out), and one with lines"
        " ZONE with the zone file of its run (--zones), and one whose first line ends with TO with the second deck of"
        " its run (--to); or its model has changed."
    ),
    24: (
        "Either the model has no solution or any lower head solves it too; MODFLOW prints heads there all the same. "
        "Join the cells to a head, take less, or make them inactive (IBOUND 0)."
    ),
    25: "Join the cells to something that takes water, or make them inactive (IBOUND 0).",
    26: (
        "The model may well have heads. Run with --wide, which cuts such a floor (`heads-tools run` does it by"
        " itself). If that ends so, too: leave the lens of small conductivity out (IBOUND 0), or give its cells a"
        " conductivity nearer to that beside it."
    ),
    27: (
        "The model may well have heads. Run with --wide, which cuts such a ceiling (`heads-tools run` does it by"
        " itself). If that ends so, too: leave the lens of small conductivity out (IBOUND 0), or give its cells a"
        " conductivity nearer to that beside it."
    ),
}
OUT_OF_RANGE = {
    "LPF": (
        "HK, HANI, VKA and VKCB are above 0 in cells with flow, SS is at least 0. Of HK 0 in a single layer"
        " MODFLOW makes the cell inactive, and `heads-tools plain` writes IBOUND 0 there."
    ),
    "CHD": (
        "A cell stands in a list once (MODFLOW-2005 adds the heads of two entries): take one of the two entries out."
    ),
    "RIV": "Cond is at least 0.",
    "DRN": "Cond is at least 0.",
    "GHB": "Cond is at least 0.",
    "EVT": "EVTR is at least 0, and EXDP above 0 where EVTR is.",
}
ENTRIES = (
    "In each period both lists have entries of the same cells in the same order. Give an entry that only one plan has"
    " {zero} in the other: `heads-tools between` writes both decks so."
)
NOT_ALIKE = {
    "WEL": ENTRIES.format(zero="the rate 0"),
    "RIV": ENTRIES.format(zero="the conductance 0"),
    "DRN": ENTRIES.format(zero="the conductance 0"),
    "GHB": ENTRIES.format(zero="the conductance 0"),
    "CHD": (
        "In each period both decks give heads at the same cells in the same order, and both heads of an entry are at"
        " most, or both at least, those of the other deck's entry."
    ),
    "RCH": "Both decks have the same option and the same IRCH; only RECH may differ.",
    "EVT": (
        "Both decks have the same option, EXDP and IEVT, and EVTR is 0 at the same places; only SURF and EVTR may"
        " differ."
    ),
    "BAS6": "Both decks have the same IBOUND; only STRT may differ.",
    "LPF": (
        "Both decks have the same conductivities, storage and options: bounds for a range of conductivities would be"
        " too wide to be of use. Run the two decks with each of the values."
    ),
    "DIS": "Both decks have the same grid, elevations and stress periods.",
    "": "Only one of the decks has a package: write it into the other, with rates or conductances 0.",
}
ONLY_PRINT = {"HOB", "CHOB", "DROB", "GBOB", "RVOB", "HYD", "GAGE", "GLOBAL", "DATAGLO", "DATAGLO(BINARY)"}
