"""Two decks between which bounds are asked for: exact numbers, one shape, and what can't be made alike is refused."""
import re

import pytest
from conftest import heads

TWO_PERIODS = {
    "m.nam": """# two periods
LIST 2 m.list
DIS 11 m.dis
BAS6 12 m.bas
LPF 13 m.lpf
WEL 14 m.wel
RIV 15 m.riv
CHD 16 m.chd
RCH 18 m.rch
EVT 19 m.evt
OC 20 m.oc
PCG 21 m.pcg
DATA(BINARY) 50 m.hds
""",
    "m.dis": "1 1 5 2 4 2\n0\nCONSTANT 10\nCONSTANT 10\nCONSTANT 5\nCONSTANT 0\n1 1 1 SS\n1 1 1 SS\n",
    "m.bas": "FREE\nCONSTANT 1\n-999\nCONSTANT 3\n",
    "m.lpf": "50 -1E30 0\n0\n0\n1\n0\n0\nCONSTANT 4\nCONSTANT 4\n",
    "m.wel": "1 50\n1 0\n1 1 2 -0.3\n-1 0\n",
    "m.riv": "1 50\n1 0\n1 1 3 3.5 2 1\n-1 0\n",
    "m.chd": "1\n1 0\n1 1 1 3 3.5\n-1 0\n",
    "m.rch": "2 50\n0 0\nINTERNAL 0.001 (FREE) -1\n1 2 3 4 5\nCONSTANT 1\n-1 -1\n",
    "m.evt": "2 50\n0 0 0 0\nCONSTANT 4\nCONSTANT 0.001\nCONSTANT 2\nCONSTANT 1\n-1 -1 -1 -1\n",
    "m.oc": "HEAD SAVE UNIT 50\n",
    "m.pcg": "100 100 1\n1e-4 1e-4 1 2 1 1 1\n",
}


@pytest.fixture
def deck(tmp_path):
    """A deck of two periods with most packages: its name file, and a writer of another plan's packages beside it."""
    folder = tmp_path / "deck"
    folder.mkdir()
    for name, text in TWO_PERIODS.items():
        (folder / name).write_text(text)

    def other(name, text):
        (folder / name).write_text(text)
        return folder / name

    return folder / "m.nam", other


def lines(path):
    return path.read_text().splitlines()


def test_the_two_decks_have_the_ends_of_the_ranges(example, tool, tmp_path):
    words = ["--wells", "0..1", "--recharge", "0.8..1.2", "--stage", "-0.2..0.2"]
    status, out, err = tool("between", example("river_valley"), tmp_path / "two", *words)
    assert status == 0 and "alike but for wells, rivers, recharge" in out, out + err
    told = [
        (lines(tmp_path / "two" / f"{deck}.wel")[2], lines(tmp_path / "two" / f"{deck}.rch")[2])
        for deck in ("from", "to")
    ]
    assert told == [("1 8 17 0", "CONSTANT 0.00048"), ("1 8 17 -1500", "CONSTANT 0.00072")]
    assert [lines(tmp_path / "two" / f"{deck}.riv")[2] for deck in ("from", "to")] == [
        "1 1 15 11.7 200 10.4",
        "1 1 15 12.1 200 10.4",
    ]
    assert {f.name for f in (tmp_path / "two").glob("both.*")} == {"both.dis", "both.bas", "both.lpf"}


def test_a_well_that_one_plan_lacks_has_the_rate_0_there(example, tool, tmp_path):
    nam = example("pumping_plans").with_name("no_well.nam")
    status, out, err = tool("between", nam, tmp_path / "two", "--package", nam.with_name("two_wells.wel"))
    assert status == 0, err
    assert lines(tmp_path / "two" / "from.wel")[1:] == ["2 0", "1 5 13 0", "1 7 10 0"]
    assert lines(tmp_path / "two" / "to.wel")[1:] == ["2 0", "1 5 13 -800", "1 7 10 -600"]
    assert "WEL 20 from.wel" in lines(tmp_path / "two" / "from.nam")


@pytest.mark.program
@pytest.mark.parametrize("name", ["river_valley", "pumping_plans"])
def test_a_deck_whose_factors_are_1_lists_what_the_given_deck_lists(name, example, tool, tmp_path):
    nam = example(name).with_name("two_wells.nam" if name == "pumping_plans" else "m.nam")
    assert tool("between", nam, tmp_path / "two", "--wells", "0..1", "--recharge", "1..0.5")[0] == 0
    assert tool("between", nam, tmp_path / "same", "--wells", "0.5..1", "--recharge", "0..1")[0] == 0
    given = heads(["run", nam.name], nam.parent).stdout
    assert given.endswith("END\n") and heads(["run", "to.nam"], tmp_path / "same").stdout == given
    for deck in ("from.nam", "to.nam"):
        other = heads(["run", deck], tmp_path / "two").stdout
        assert other.endswith("END\n") and other != given


def test_a_list_that_holds_on_is_multiplied_once(deck, tool, tmp_path):
    nam, other = deck
    plan = other("plan.wel", "2\n1 0\n1 1 2 -0.5\n2 0\n1 1 4 -0.25\n1 1 2 -0.5\n")
    status, out, err = tool("between", nam, tmp_path / "two", "--wells", "2..3", "--package", plan)
    assert status == 0, err
    assert lines(tmp_path / "two" / "from.wel") == "2 50/1 0/1 1 2 -0.6/2 0/1 1 2 -0.6/1 1 4 0".split("/")
    assert lines(tmp_path / "two" / "to.wel") == "2/1 0/1 1 2 -1.5/2 0/1 1 2 -1.5/1 1 4 -0.75".split("/")


def test_recharge_of_one_plan_alone_is_0_in_the_other_and_a_factor_of_0_is_written_out(deck, tool, tmp_path):
    nam, other = deck
    assert tool("between", nam, tmp_path / "two", "--recharge", "0..2")[0] == 0
    assert lines(tmp_path / "two" / "from.rch")[3] == "0 0 0 0 0"
    assert lines(tmp_path / "two" / "to.rch")[3] == "0.002 0.004 0.006 0.008 0.01"
    plan = other("plan.rch", TWO_PERIODS["m.rch"])
    nam.write_text(TWO_PERIODS["m.nam"].replace("RCH 18 m.rch\n", ""))
    assert tool("between", nam, tmp_path / "one", "--package", plan)[0] == 0
    assert lines(tmp_path / "one" / "from.rch") == "2 0/0 0/CONSTANT 0/CONSTANT 1/-1 -1".split("/")


def test_each_deck_has_outputs_of_its_own_for_modflow_and_its_solver(deck, tool, tmp_path):
    nam, other = deck
    plan = other("plan.riv", "2 50\n2 0\n1 1 3 3.4 2 1\n1 1 4 3.4 2 1\n-1 0\n")
    assert tool("between", nam, tmp_path / "two", "--package", plan)[0] == 0
    names = lines(tmp_path / "two" / "from.nam")
    assert "LIST 2 from_m.list" in names and "DATA(BINARY) 50 from_m.hds" in names and "PCG 21 m.pcg" in names
    assert (tmp_path / "two" / "m.pcg").read_text() == TWO_PERIODS["m.pcg"]
    assert lines(tmp_path / "two" / "from.riv") == "2 50/2 0/1 1 3 3.5 2 1/1 1 4 3.4 0 1/-1 0".split("/")


NOT_ALIKE = {
    "a given head that one deck lacks": ("p.chd", "1\n0 0\n-1 0\n", "m.chd, line 3", "gives the head of cell 1 1 1"),
    "another option": ("p.rch", "1 50\n0\nCONSTANT 0.001\n-1\n", "p.rch, line 1", "the option is 1"),
    "recharge into another layer": (
        "p.rch",
        "2 50\n0 0\nCONSTANT 0.001\nINTERNAL 1 (FREE) -1\n1 1 1 0 1\n-1 -1\n",
        "p.rch, line 4",
        "IRCH has another value at row 1 column 4",
    ),
    "another depth of evapotranspiration": (
        "p.evt",
        TWO_PERIODS["m.evt"].replace("CONSTANT 2", "CONSTANT 1.5"),
        "p.evt, line 5",
        "EXDP has another value at row 1 column 1",
    ),
    "evapotranspiration in one deck alone": (
        "p.evt",
        TWO_PERIODS["m.evt"].replace("CONSTANT 0.001", "INTERNAL 1 (FREE) -1\n1 1 0 1 1"),
        "p.evt, line 4",
        "EVTR is 0 in one deck alone at row 1 column 3",
    ),
    "no package of stresses": ("p.lpf", TWO_PERIODS["m.lpf"], "p.lpf", "other data are the same"),
    "a fault of the other plan": ("p.wel", "1\n1 0\n1 1 2 x\n-1 0\n", "p.wel, line 3", "`x` is no number"),
}


@pytest.mark.parametrize("name", NOT_ALIKE)
def test_what_would_not_be_alike_is_refused_with_file_and_line(name, deck, tool, tmp_path):
    file, text, where, said = NOT_ALIKE[name]
    nam, other = deck
    status, out, err = tool("between", nam, tmp_path / "two", "--package", other(file, text))
    assert status == 2 and where in err and said in err, err
    assert not (tmp_path / "two").exists()


def test_what_can_not_be_written_exactly_is_refused(deck, tool, tmp_path):
    nam, _ = deck
    status, out, err = tool("between", nam, tmp_path / "two", "--wells", "0.123456789012345678..1")
    assert status == 0, err
    status, out, err = tool("between", nam, tmp_path / "other", "--wells", "0..4.23456789012345678")
    assert status == 2 and "m.wel, line 3" in err and "18 digits" in err


@pytest.mark.parametrize("word", ["0-1", "0...5", "1", "a..b", "1..2..3"])
def test_a_word_that_is_no_range_is_refused(word, deck, tool, tmp_path):
    status, out, err = tool("between", deck[0], tmp_path / "two", "--wells", word)
    assert status == 2 and "a range is LOW..HIGH" in err


def test_a_range_of_what_the_deck_lacks_is_refused(example, tool, tmp_path):
    status, out, err = tool("between", example("three_cells"), tmp_path / "two", "--wells", "0..1")
    assert status == 2 and "has no wells" in err


def test_the_call_takes_the_ranges_by_name(example, tmp_path):
    import heads_tools

    answer = heads_tools.between(example("river_valley"), tmp_path / "two", wells="0..1", stage="-0.2..0.2")
    assert answer.is_good and re.search("alike but for wells, rivers", str(answer))
    assert (tmp_path / "two" / "to.riv").is_file()
