"""Models with convertible layers: bad input, files that stay, and commands that refuse such a listing."""
import re
from decimal import Decimal as D

import pytest
from test_convertible import certified, guess, table, whole_table
from water_reference import pumped, tank

import heads_tools
from heads_tools.common.text import Problem

pytestmark = pytest.mark.program


@pytest.mark.parametrize(
    "laytyp, options, line, said",
    [
        ("-1", "THICKSTRT", 2, "LAYTYP of layer 1 is below 0 with THICKSTRT"),
        ("1", "CONSTANTCV", 1, "CONSTANTCV"),
        ("1", "nocvcorrection", 1, "NOCVCORRECTION"),
        ("1", "STORAGECOEFFICIENT NOVFC", 1, "NOVFC"),
    ],
)
def test_what_is_not_read_of_convertible_layers(laytyp, options, line, said, tmp_path, tool):
    model = pumped("-600")
    nam = model.write(tmp_path)
    text = nam.with_name("m.lpf").read_text().replace("0 -1E+30 0\n1\n", f"0 -1E+30 0 {options}\n{laytyp}\n", 1)
    nam.with_name("m.lpf").write_text(text)
    status, out, err = tool("certify", nam, whole_table(nam, model, [10, 6, 10]), "--convertible")
    assert status == 2 and f"m.lpf, line {line}: {said}" in err, out + err
    assert not nam.with_suffix(".certified.heads").exists()


def test_a_specific_yield_below_0_is_refused_with_its_cell(tmp_path, tool):
    model = tank(["0"])
    model.sy = D("-0.1")
    nam = model.write(tmp_path)
    status, _, err = tool("certify", nam, table(nam, {(1, 1, 1): 4}), "--convertible")
    assert status == 2 and re.search(r"m\.lpf, line \d+: the cell 1 1 1 \(layer row column\): SY is below 0", err), err


def test_a_head_at_its_bottom_is_not_gentle(tmp_path, tool):
    model = pumped("-600")
    nam = model.write(tmp_path)
    status, out, _ = tool("certify", nam, whole_table(nam, model, [10, 0, 10]), "--convertible")
    assert status == 8 and out.startswith("NOT CERTIFIED 1 1 1 1 2 GENTLE\n") and "the cell is dry" in out


def test_a_constant_head_below_its_bottom_is_not_gentle(tmp_path, tool):
    model = pumped("-1")
    model.strt[0] = D(-1)
    nam = model.write(tmp_path)
    status, out, _ = tool("certify", nam, guess(nam, model), "--convertible")
    assert status == 8 and out.startswith("NOT CERTIFIED 1 1 1 1 1 GENTLE\n")


def test_a_confined_deck_goes_without_the_word(tmp_path, tool):
    model = pumped("-1")
    model.convertible = [False]
    nam = model.write(tmp_path)
    status, _, err = tool("certify", nam, guess(nam, model), "--convertible")
    assert status == 2 and "every LAYTYP is 0" in err


def test_files_of_the_deck_and_of_modflow_stay(tmp_path, tool):
    model = pumped("-600")
    nam = model.write(tmp_path)
    heads = whole_table(nam, model, [10, 6, 10])
    before = {path.name: path.read_bytes() for path in tmp_path.iterdir()}
    for name in ("m.lpf", "run.csv", "m.nam"):
        status, _, err = tool("certify", nam, heads, "--convertible", "--out", tmp_path / name)
        assert status == 2 and "isn't written over" in err
    (tmp_path / "other.heads").write_text("not ours\n")
    assert tool("certify", nam, heads, "--convertible", "--out", tmp_path / "other.heads")[0] == 2
    (tmp_path / "other.heads").unlink()
    assert before == {path.name: path.read_bytes() for path in tmp_path.iterdir()}


def test_an_earlier_listing_stays_where_a_later_one_is_refused(tmp_path, tool):
    model = pumped("-600")
    nam = model.write(tmp_path)
    certified(tool, nam, whole_table(nam, model, [10, 6, 10]))
    before = nam.with_suffix(".certified.heads").read_bytes()
    assert tool("certify", nam, whole_table(nam, model, [10, 2.5, 10]), "--convertible")[0] == 8
    assert nam.with_suffix(".certified.heads").read_bytes() == before


def test_commands_for_confined_models_refuse_the_listing(tmp_path, tool):
    model = pumped("-600")
    nam = model.write(tmp_path)
    certified(tool, nam, whole_table(nam, model, [10, 6, 10]))
    path = nam.with_suffix(".certified.heads")
    with pytest.raises(Problem, match="gentle"):
        made = heads_tools.certify(nam, nam.with_name("run.csv"), convertible=True)
        heads_tools.look(made.listing, tmp_path / "look")
    for words in (("look", path, tmp_path / "look"), ("check", nam, path), ("hds", path, tmp_path / "m.hds")):
        status, out, err = tool(*words)
        assert status == 2 and "holds for gentle heads alone" in err, out + err
    assert not (tmp_path / "look").exists() and not (tmp_path / "m.hds").exists()
