"""A small confined simulation of MODFLOW 6, and changes of it."""

BASE = {
    "mfsim.nam": "BEGIN TIMING\n TDIS6 m.tdis\nEND TIMING\nBEGIN MODELS\n GWF6 m.nam g\nEND MODELS\n",
    "m.tdis": (
        "BEGIN DIMENSIONS\n NPER 3\nEND DIMENSIONS\nBEGIN PERIODDATA\n 1 1 1\n 10 2 1.5\n 10 1 1\nEND PERIODDATA\n"
    ),
    "m.nam": (
        "BEGIN PACKAGES\n DIS6 m.dis\n IC6 m.ic\n NPF6 m.npf\n STO6 m.sto\n CHD6 m.chd\n WEL6 m.wel\nEND PACKAGES\n"
    ),
    "m.dis": (
        "BEGIN DIMENSIONS\n NLAY 3\n NROW 1\n NCOL 3\nEND DIMENSIONS\nBEGIN GRIDDATA\n DELR\n CONSTANT 10\n DELC\n"
        " CONSTANT 10\n TOP\n CONSTANT 30\n BOTM LAYERED\n CONSTANT 20\n CONSTANT 10\n CONSTANT 0\n IDOMAIN\n"
        " CONSTANT 1\nEND GRIDDATA\n"
    ),
    "m.ic": "BEGIN GRIDDATA\n STRT\n CONSTANT 25\nEND GRIDDATA\n",
    "m.npf": "BEGIN GRIDDATA\n ICELLTYPE\n CONSTANT 0\n K\n CONSTANT 3\n K33\n CONSTANT 1\nEND GRIDDATA\n",
    "m.sto": (
        "BEGIN GRIDDATA\n ICONVERT\n CONSTANT 0\n SS\n CONSTANT 1e-5\n SY\n CONSTANT .1\nEND GRIDDATA\n"
        "BEGIN PERIOD 1\n STEADY-STATE\nEND PERIOD\nBEGIN PERIOD 2\n TRANSIENT\nEND PERIOD\n"
    ),
    "m.chd": "BEGIN DIMENSIONS\n MAXBOUND 2\nEND DIMENSIONS\nBEGIN PERIOD 1\n 1 1 1 25.\n 3 1 3 24.\nEND PERIOD\n",
    "m.wel": "BEGIN DIMENSIONS\n MAXBOUND 1\nEND DIMENSIONS\nBEGIN PERIOD 2\n 2 1 2 -10.\nEND PERIOD\n",
}
LAYERS = "IDOMAIN LAYERED\n CONSTANT {}\n CONSTANT {}\n CONSTANT {}"
RECHARGE = "BEGIN OPTIONS\n READASARRAYS\nEND OPTIONS\nBEGIN PERIOD 1\n RECHARGE\n CONSTANT .001\nEND PERIOD\n"
OPTION = "BEGIN OPTIONS\n {}\nEND OPTIONS\n"


def put(folder, changes=()):
    """Writes the base model with changes; its mfsim.nam."""
    folder.mkdir(exist_ok=True)
    for name, text in BASE.items():
        (folder / name).write_text(text)
    for name, change in dict(changes).items():
        text = change
        if isinstance(change, tuple):
            text = (folder / name).read_text()
            assert change[0] in text
            text = text.replace(change[0], change[1], 1)
        (folder / name).write_text(text)
    return folder / "mfsim.nam"
