"""What is refused of MODFLOW 6, each with its place: never a traceback, nothing written."""
import random

import pytest

from modflow6_base import BASE, LAYERS, OPTION, RECHARGE, put

CONFINED = "To make it confined is your decision, not a spelling"
EVT = "BEGIN DIMENSIONS\n MAXBOUND 2\n NSEG {}\nEND DIMENSIONS\nBEGIN PERIOD 1\n{}END PERIOD\n"
# What is changed in the base: by file, a text and what it becomes; and what is said, with file and line.
REFUSALS = [
    ({"m.npf": ("ICELLTYPE\n CONSTANT 0", "ICELLTYPE LAYERED\n CONSTANT 0\n CONSTANT 1\n CONSTANT 0")},
     "m.npf, line 4: ICELLTYPE at (2, 1, 1), and 2 more cells, isn't 0: such a cell's transmissivity changes with the"
     f" head. {CONFINED}"),
    ({"m.npf": ("K33\n", "K22\n CONSTANT 1\n K33\n"), "m.dis": ("NROW 1", "NROW 2")},
     "m.npf, line 7: K22/K is 1/3, which no decimal says exactly, at (1, 1, 1)"),
    ({"m.npf": (" K\n CONSTANT 3", " K\n CONSTANT 0")},
     "m.npf, line 5: K at (1, 1, 1), and 8 more cells, isn't above 0"),
    ({"m.npf": (" K\n CONSTANT 3", " K\n CONSTANT 1.2345678901234567891")},
     "m.npf, line 5: K: `1.2345678901234567891` has 20 digits; 18 are read"),
    ({"m.npf": (" K\n CONSTANT 3", " K\n OPEN/CLOSE k.bin (BINARY)")}, "m.npf, line 5: a binary file isn't read"),
    ({"m.npf": (" K\n CONSTANT 3", " K\n OPEN/CLOSE k.txt")}, "m.npf, line 5: there is no file k.txt"),
    ({"m.npf": (" K\n CONSTANT 3", " K\n INTERNAL\n 1 2 3 4 5 6 7 8")},
     "m.npf, line 7: K: `K33` is no number, and 1 more are due"),
    ({"m.npf": (" K\n CONSTANT 3", " K\n INTERNAL\n 1 2 3 4 5 6 7 8 9 10")},
     "m.npf, line 6: K: a row has more numbers than its 9"),
    ({"m.npf": (" K\n CONSTANT 3", " K\n INTERNAL\n 1 2 3 4 5 6 7,,9")}, "m.npf, line 6: K: a value is left out"),
    ({"m.npf": (" K\n CONSTANT 3", " K\n INTERNAL FACTOR 0\n 9*1")}, "m.npf, line 5: FACTOR is 0"),
    ({"m.npf": (" K\n CONSTANT 3", " K\n CONSTANT\\\n 3")}, "m.npf, line 5: a backslash right after a word"),
    ({"m.npf": ("BEGIN GRID", OPTION.format("K22OVERK") + "BEGIN GRID")},
     "m.npf, line 2: K22OVERK stands here, and the array K22 doesn't"),
    ({"m.dis": ("NROW 1", "NROW 1\n NROW 2")}, "m.dis, line 4: NROW stands here once more"),
    ({"m.wel": ("BEGIN PERIOD 2", "BEGIN PERIOD 2 OPEN/CLOSE w.txt")}, "m.wel, line 4: `OPEN/CLOSE` isn't read here"),
    ({"m.wel": ("2 1 2 -10.", "OPEN/CLOSE w.txt FACTOR 2")}, "m.wel, line 5: `FACTOR` isn't read here"),
    ({"m.npf": (" K\n CONSTANT 3\n", "")}, "m.npf, line 1: the array K is missing"),
    ({"m.npf": ("K33\n", "ANGLE1\n CONSTANT 45\n K33\n")},
     "m.npf, line 7: ANGLE1 at (1, 1, 1), and 8 more cells, isn't 0"),
    ({"m.npf": ("BEGIN GRID", OPTION.format("XT3D") + "BEGIN GRID")},
     "m.npf, line 2: the option XT3D makes other equations"),
    ({"m.npf": ("BEGIN GRID", OPTION.format("ALTERNATIVE_CELL_AVERAGING LOGARITHMIC") + "BEGIN GRID")},
     "m.npf, line 2: the option ALTERNATIVE_CELL_AVERAGING makes other conductances: only the harmonic mean is read"),
    ({"m.npf": ("BEGIN GRID", OPTION.format("NEW_WORD") + "BEGIN GRID")},
     "m.npf, line 2: the option NEW_WORD is not known here"),
    ({"m.npf": ("END GRIDDATA\n", "")}, "m.npf, line 1: the block GRIDDATA has no END: was the file cut?"),
    ({"m.dis": ("IDOMAIN\n CONSTANT 1", LAYERS.format(1, -1, 1)), "m.wel": ("2 1 2", "1 1 2")},
     "m.dis, line 19: IDOMAIN at (2, 1, 1), and 2 more cells, is below 0: it joins the cells above and below it"),
    ({"m.dis": (" TOP\n CONSTANT 30", " TOP\n CONSTANT 20")},
     "m.dis, line 14: BOTM at (1, 1, 1), and 2 more cells, isn't below the cell's top"),
    ({"m.dis": ("NLAY 3", "NLAY three")}, "m.dis, line 2: NLAY is `three`, where a whole number is due"),
    ({"m.dis": (" TOP\n CONSTANT 30", " TOP LAYERED\n CONSTANT 30")}, "m.dis, line 11: TOP has no layers"),
    ({"m.chd": ("END PERIOD\n", "END PERIOD\nBEGIN PERIOD 3\n 3 1 3 24.\nEND PERIOD\n")},
     "m.chd, line 5: CHD6: (1, 1, 1) leaves the list in period 3: free again in MODFLOW 6, not in MODFLOW-2005"),
    ({"m.chd": ("3 1 3 24.", "1 1 1 24.")},
     "m.chd, line 6: CHD6: the cell (1, 1, 1) stands in period 1 twice (line 5, too)"),
    ({"m.chd": ("MAXBOUND 2", "MAXBOUND 1")}, "m.chd, line 4: 2 entries, and MAXBOUND is 1"),
    ({"m.chd": ("BEGIN PERIOD 1", "BEGIN PERIOD 2\nEND PERIOD\nBEGIN PERIOD 1")},
     "m.chd, line 6: PERIOD 1: the numbers of periods grow"),
    ({"m.wel": ("-10.", "flow_ts")}, "m.wel, line 5: `flow_ts` is no number (of a time series?)"),
    ({"m.wel": ("2 1 2 -10.", "2 1 4 -10.")}, "m.wel, line 5: the cell 2 1 4 lies outside the grid of 3, 1, 3"),
    ({"m.wel": ("2 1 2 -10.", "2 1 2")}, "m.wel, line 5: q is due here, and the line ends"),
    ({"m.wel": ("2 1 2 -10.", "OPEN/CLOSE w.bin (BINARY)")}, "m.wel, line 5: a binary file isn't read"),
    ({"m.wel": ("BEGIN DIM", OPTION.format("TS6 FILEIN q.ts") + "BEGIN DIM")},
     "m.wel, line 2: the option TS6 reads numbers from time series"),
    ({"m.wel": ("BEGIN DIM", OPTION.format("AUXMULTNAME m") + "BEGIN DIM")},
     "m.wel, line 2: AUXMULTNAME M isn't one of the names"),
    ({"m.dis": ("IDOMAIN\n CONSTANT 1", LAYERS.format(1, 0, 1))},
     "m.wel, line 5: the cell 2 1 2 has no flow (MODFLOW 6 stops here, too)"),
    ({"m.sto": ("BEGIN PERIOD 1\n STEADY-STATE\nEND PERIOD\n", "")}, "m.sto: it doesn't say of period 1 whether it is"),
    ({"m.sto": ("ICONVERT\n CONSTANT 0", "ICONVERT\n CONSTANT 1")},
     "m.sto, line 3: ICONVERT at (1, 1, 1), and 8 more cells, isn't 0"),
    ({"m.tdis": ("BEGIN DIM", OPTION.format("ATS6 FILEIN m.ats") + "BEGIN DIM")},
     "m.tdis, line 2: the option ATS6 lets MODFLOW 6 choose"),
    ({"m.tdis": (" 10 1 1\n", "")}, "m.tdis, line 4: NPER is 3, and PERIODDATA has 2 lines"),
    ({"m.tdis": (" 10 1 1\n", " 10 1 1e-5\n")}, "m.tdis, line 7: TSMULT of the transient period 3: other than 1"),
    ({"m.tdis": (" 10 1 1\n", " 0 1 1\n")}, "m.tdis, line 7: PERLEN of the transient period 3 isn't above 0"),
    ({"m.ic": BASE["m.ic"].replace("\n", "\r")}, "m.nam, line 3: m.ic: its lines end with CR alone"),
    ({"m.nam": ("END P", " SFR6 m.sfr\nEND P")}, "m.nam, line 8: SFR6: streams aren't read"),
    ({"m.nam": ("DIS6 m.dis", "DISV6 m.dis")}, "m.nam, line 2: DISV6: a grid of vertices"),
    ({"m.nam": (" IC6 m.ic\n", "")}, "m.nam: the name file lacks IC6"),
    ({"mfsim.nam": ("GWF6 m.nam g", "GWF6 m.nam g\n GWT6 t.nam t")}, "mfsim.nam, line 6: a model GWT6: one model"),
    ({"mfsim.nam": ("BEGIN TIMING", "BEGIN EXCHANGES\n GWF6-GWF6 e a b\nEND EXCHANGES\nBEGIN TIMING")},
     "mfsim.nam, line 2: exchanges join models"),
    ({"m.nam": ("END P", " RCH6 m.rch\nEND P"), "m.rch": RECHARGE, "m.chd": (" 1 1 1 25.\n", ""),
      "m.dis": ("IDOMAIN\n CONSTANT 1", LAYERS.format(0, 1, 1))},
     "m.rch, line 6: RECHARGE at (1, 1, 1), which has no flow, above or below cells that have"),
    ({"m.nam": ("END P", " EVT6 m.evt\nEND P"), "m.evt": EVT.format(2, " 1 1 1 25 .01 2 .5 .5\n")},
     "m.evt, line 3: NSEG is above 1"),
    ({"m.nam": ("END P", " EVT6 m.evt\nEND P"), "m.evt": EVT.format(1, " 1 1 1 25 .01 2\n 2 1 1 25 .01 2\n")},
     "m.evt, line 7: EVT6: a second entry in the column of layers of (2, 1, 1) (that of (1, 1, 1) stands in m.evt,"
     " line 6)"),
    ({"m.nam": ("END P", " EVT6 m.evt\nEND P"), "m.evt": EVT.format(1, " 1 1 1 25 .01 0\n")},
     "m.evt, line 6: depth isn't above 0"),
]  # fmt: skip


@pytest.mark.parametrize("changes, said", REFUSALS, ids=[said[:40] for _, said in REFUSALS])
def test_what_the_deck_cannot_say_is_refused_with_its_place(tmp_path, tool, changes, said):
    nam = put(tmp_path / "m", changes)
    status, out, error = tool("plain", nam, tmp_path / "deck")
    assert status == 2 and error.startswith(f"heads-tools: {said}") and error.count("\n") == 1 and out == ""
    assert not (tmp_path / "deck").exists()
    status, out, _ = tool("inside", nam)
    assert status == 1 and f"- {said}" in out


def test_the_name_file_of_a_model_is_not_that_of_the_simulation(tmp_path, tool):
    nam = put(tmp_path / "m").with_name("m.nam")
    status, out, error = tool("plain", nam, tmp_path / "deck")
    assert (status, out) == (2, "") and "m.nam, line 1: this is the name file of a model" in error


def test_five_faults_are_named_at_once(tmp_path, tool):
    changes = {
        "m.npf": ("ICELLTYPE\n CONSTANT 0\n K\n CONSTANT 3", "ICELLTYPE\n CONSTANT 1\n K\n CONSTANT x"),
        "m.wel": ("-10.", "flow_ts"),
        "m.tdis": ("BEGIN DIM", OPTION.format("ATS6 FILEIN m.ats") + "BEGIN DIM"),
        "m.chd": ("END PERIOD\n", "END PERIOD\nBEGIN PERIOD 3\n 3 1 3 24.\nEND PERIOD\n"),
    }
    status, out, _ = tool("inside", put(tmp_path / "m", changes))
    assert status == 1 and "NOT INSIDE, for 5 reasons:" in out
    places = ("m.npf, line 3: ICELLTYPE", "m.npf, line 5: K:", "m.wel, line 5:", "m.tdis, line 2:", "m.chd, line 5:")
    for place in places:
        assert f"- {place}" in out


def test_spoiled_simulations_give_one_sentence(tmp_path, tool):
    drawn = random.Random(6)
    words = ["", "#", "'", ",", "\\", "0", "-1", "1e99", "x", "LAYERED", "OPEN/CLOSE", "END", "BEGIN", "*", "3*", "nan"]
    for n in range(120):
        nam = put(tmp_path / "m")
        file = drawn.choice(sorted(nam.parent.iterdir()))
        lines = file.read_text().split("\n")
        at = drawn.randrange(len(lines))
        line = lines[at].split(" ")
        line[drawn.randrange(len(line))] = drawn.choice(words)
        lines[at] = " ".join(line)
        file.write_text("\n".join(lines[:at] if drawn.random() < 0.2 else lines))
        status, out, error = tool("plain", nam, tmp_path / "deck")
        good = status in (0, 1) and error == ""
        assert good or (status, out) == (2, "") and error.count("\n") == 1, (n, out, error)


@pytest.mark.parametrize("command", ("run", "model", "certify", "plain", "inside"))
@pytest.mark.parametrize(
    "content", ("", "\0\1\2", "BEGIN\n", "BEGIN OPTIONS\n", "END\n", "x\n", "BEGIN OPTIONS\nEND OPTIONS\n", ",\n")
)
def test_wrong_files_give_one_sentence(tmp_path, tool, command, content):
    nam = tmp_path / "mfsim.nam"
    nam.write_text(content)
    more = {"plain": [tmp_path / "deck"], "certify": [nam]}.get(command, [])
    status, out, error = tool(command, nam, *more)
    assert "Traceback" not in out + error
    if command == "inside":
        assert status == 1 and out.startswith("NOT INSIDE, for 1 reason:")
    else:
        assert status == 2 and error.count("\n") == 1
    if command in ("run", "model", "certify"):
        assert "mfsim.nam is of MODFLOW 6: `heads-tools plain mfsim.nam FOLDER`" in error
