"""Decks of models with convertible layers: without cells that a run dried, with confined layers where they are full,
and what `inside` says of a run's heads."""
import struct
from decimal import Decimal

import pytest
from conftest import heads
from water_reference import Small, pumped, tank

D = Decimal


def head_file(path, layers, period=1, step=1):
    """A head file of MODFLOW, single precision, with one layer of rows after another."""
    out = b""
    for k, rows in enumerate(layers, 1):
        out += struct.pack("<2i2f16s3i", step, period, 1.0, 1.0, b"            HEAD", len(rows[0]), len(rows), k)
        out += struct.pack(f"<{len(rows) * len(rows[0])}f", *[h for row in rows for h in row])
    path.write_bytes(path.read_bytes() + out if path.is_file() else out)
    return path


def two_layers(option):
    """Two layers of three cells, of which the run dried the middle one of the first layer."""
    top, bottom = [D(20)] * 3 + [D(10)] * 3, [D(10)] * 3 + [D(0)] * 3
    model = Small((2, 1, 3), top, bottom, [D(10)] * 6, [-1, 1, -1] * 2, [D(12)] * 6, [True] * 2)
    model.rain = D("0.001")
    model.option = option
    return model


def written(model, folder):
    nam = model.write(folder)
    rch = nam.with_name("m.rch")
    if hasattr(model, "option"):
        rch.write_text(rch.read_text().replace("3 0", f"{model.option} 0", 1))
    return nam


@pytest.mark.parametrize(
    "option, said",
    [
        (1, "NRCHOP 1: the recharge of 1 column (row column 1 2) is lost, since its cell is dry"),
        (3, "NRCHOP 3: the recharge of 1 column (row column 1 2) goes to the next cell below"),
    ],
)
@pytest.mark.parametrize("mark", (-1e30, 1e30, -999.99, 0.0))
def test_cells_that_the_run_dried_are_taken_out(option, said, mark, tmp_path, tool):
    model = two_layers(option)
    model.wells = [(1, [D(-5)]), (4, [D(-1)])]
    nam = written(model, tmp_path)
    lpf = nam.with_name("m.lpf")
    lpf.write_text(lpf.read_text().replace("-1E+30", f"{mark:g}", 1))
    run = head_file(tmp_path / "run.hds", [[[12, mark, 12]], [[12, 9.5, 12]]])
    status, out, err = tool("plain", nam, tmp_path / "new", "--dry", run)
    assert status == 0, out + err
    notes = (tmp_path / "new" / "plain.txt").read_text()
    assert "layer row column 1 1 2: IBOUND 0, the run dried it" in notes and said in notes
    assert "m.wel, line 3: this entry of WEL is in a dry cell" in notes and "line 4" not in notes
    bas = (tmp_path / "new" / "m.bas6").read_text().split("\n")
    assert bas[2] == "-1 0 -1" and bas[4] == "-1 1 -1"
    assert (tmp_path / "new" / "m.lpf").read_text().split("\n")[1] == "1 1"


def test_of_a_cell_that_dries_later_it_is_said_that_the_steps_before_are_of_another_model(tmp_path, tool):
    model = two_layers(3)
    model.periods = [("10", 2, "TR")]
    nam = written(model, tmp_path)
    head_file(tmp_path / "run.hds", [[[12, 11, 12]], [[12, 9.5, 12]]])
    run = head_file(tmp_path / "run.hds", [[[12, -1e30, 12]], [[12, 9.5, 12]]], step=2)
    assert tool("plain", nam, tmp_path / "new", "--dry", run)[0] == 0
    notes = (tmp_path / "new" / "plain.txt").read_text()
    assert "1 1 2: IBOUND 0, the run dried it at period 1 step 2: CAREFUL" in notes


@pytest.mark.program
def test_a_deck_without_dry_cells_is_certified(tmp_path, tool):
    """Below the dry cell the second layer has the water table, and its recharge."""
    nam = written(two_layers(3), tmp_path)
    run = head_file(tmp_path / "run.hds", [[[12, -1e30, 12]], [[12, 9.5, 12]]])
    status, out, _ = tool("certify", nam, run, "--convertible")
    assert status == 8 and out.startswith("NOT CERTIFIED 1 1 1 1 2 GENTLE") and "plain --dry" in out
    assert tool("plain", nam, tmp_path / "new", "--dry", run)[0] == 0
    status, out, err = tool("certify", tmp_path / "new" / "m.nam", run, "--convertible")
    assert status == 0, out + err


def test_a_table_that_lacks_a_cell_does_not_make_it_dry(tmp_path, tool):
    nam = written(two_layers(1), tmp_path)
    (tmp_path / "run.csv").write_text("1,1,1,12\n1,1,2,-1E30\n")
    status, _, err = tool("plain", nam, tmp_path / "new", "--dry", tmp_path / "run.csv")
    assert status == 2 and "has no head at layer row column 1 1 3" in err and not (tmp_path / "new").exists()


def full(strt="12"):
    """The pumped cell under a top of 3 m: full at 8.5 m, with 45 m3/d from each side."""
    model = pumped("-90", known="10")
    model.top = [D(3)] * 3
    model.strt[1] = D(strt)
    return model


@pytest.mark.program
def test_full_layers_are_written_as_confined_ones(tmp_path, tool):
    """T is 30 m2/d, so that 90 m3/d from two sides take 1.5 m: 5.5 m above the top."""
    nam = full().write(tmp_path)
    status, out, err = tool("plain", nam, tmp_path / "new", "--as-confined")
    assert status == 0, out + err
    notes = (tmp_path / "new" / "plain.txt").read_text()
    assert "LAYTYP of layer 1 written as 0: 3 cells of them are full" in notes
    assert "5.49999999" in notes and "or more above its cell's top; least at layer row column 1 1 2" in notes
    assert "isn't proved" in notes and "Of other solutions" in notes
    new = tmp_path / "new"
    assert (new / "m.lpf").read_text().split("\n")[1] == "0"
    assert heads(["check", "m.nam", "m.heads"], new).stdout == "CERTIFIED\n"


@pytest.mark.program
def test_layers_that_are_not_full_are_refused_with_the_cell(tmp_path, tool):
    model = full()
    model.wells = [(1, [D(-480)])]
    nam = model.write(tmp_path)
    status, _, err = tool("plain", nam, tmp_path / "new", "--as-confined")
    assert status == 2 and "layer row column 1 1 2, period 1 step 1: the lower head 1.99999" in err
    assert "below the cell's top 3.000000000" in err and not (tmp_path / "new").exists()


@pytest.mark.program
def test_starting_heads_count_where_the_first_step_has_storage(tmp_path, tool):
    nam = full("2").write(tmp_path)
    assert tool("plain", nam, tmp_path / "steady", "--as-confined")[0] == 0
    assert "CAREFUL: STRT is below the top in 1 cell" in (tmp_path / "steady" / "plain.txt").read_text()
    (tmp_path / "tank").mkdir()
    nam = tank(["0"], strt="4").write(tmp_path / "tank")
    status, _, err = tool("plain", nam, tmp_path / "new", "--as-confined")
    assert status == 2 and "STRT is below the top in 1 cell, first at layer row column 1 1 1" in err
    assert not (tmp_path / "new").exists()
    model = tank(["0.25"], strt="6")
    nam = model.write(tmp_path / "tank")
    assert tool("plain", nam, tmp_path / "new", "--as-confined")[0] == 0
    assert "SY" not in (tmp_path / "new" / "m.lpf").read_text()


@pytest.mark.parametrize(
    "head, said",
    [
        (6, "the heads are gentle; 3 of 3 cells of convertible layers aren't full"),
        (2.5, "NOT GENTLE in 1 cell: from layer row column 1 1 1 to 1 1 2 the head falls by 7.500000000 m"),
        (-1e30, "1 cell dry, first at layer row column 1 1 2"),
    ],
)
def test_inside_says_whether_heads_are_gentle(head, said, tmp_path, tool):
    nam = pumped("-600").write(tmp_path)
    run = head_file(tmp_path / "run.hds", [[[10, head, 10]]])
    status, out, _ = tool("inside", nam, "--heads", run)
    assert status == 1 and f"run.hds, period 1 step 1: {said}" in out, out


def test_inside_says_by_how_much_layers_are_full(tmp_path, tool):
    nam = full().write(tmp_path)
    status, out, _ = tool("inside", nam, "--heads", head_file(tmp_path / "run.hds", [[[10, 8.5, 10]]]))
    assert status == 1 and "the convertible layers are full, by 5.500000000 m or more above the tops" in out


def test_inside_takes_heads_of_decks_with_convertible_layers_alone(tmp_path, tool):
    model = pumped("-1")
    model.convertible = [False]
    nam = model.write(tmp_path)
    status, _, err = tool("inside", nam, "--heads", head_file(tmp_path / "run.hds", [[[10, 8.5, 10]]]))
    assert status == 2 and "every layer is confined" in err
