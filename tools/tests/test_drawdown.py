"""Differences of two listings: outward in whole numbers, in sentences, tables and pages."""
import csv
import re
from pathlib import Path

import pytest
from conftest import TOP

from heads_tools import Problem, read_listing
from heads_tools.planning.drawdown import difference, told

PLAN = """HEADS 2 DIGITS 0 UNIT 2
STEP 1 1
HEAD 1 1 1 9.000000000 9.100000000
HEAD 1 1 2 5.000000001 5.000000003
IN 2.000000000 2.500000000 RIVER LEAKAGE
IN 0.000000000 0.000000000 WELLS
OUT 0.000000000 0.000000000 RIVER LEAKAGE
OUT 2.000000000 2.000000000 WELLS
ZONE 1 2 -0.500000000 -0.400000000
STEP 1 2
HEAD 1 1 1 8.000000000 8.100000000
HEAD 1 1 2 4.000000000 4.000000002
IN 2.000000000 2.000000000 RIVER LEAKAGE
OUT 2.000000000 2.000000000 WELLS
ZONE 1 2 0.000000000 0.100000000
END
"""
BASE = (
    PLAN.replace("HEADS 2 DIGITS 0", "HEADS 2 DIGITS 1")
    .replace("5.00000000", "5.31250000")
    .replace("4.00000000", "4.50000000")
)
BASE = "\n".join(re.sub(r"(\.\d{9})", r"\g<1>0", t) if t[:3] in ("IN ", "OUT", "ZON") else t for t in BASE.split("\n"))


@pytest.fixture
def two(tmp_path):
    (tmp_path / "plan.heads").write_text(PLAN)
    (tmp_path / "base.heads").write_text(BASE)
    return read_listing(tmp_path / "plan.heads"), read_listing(tmp_path / "base.heads")


def test_bounds_of_a_difference_are_outward(two):
    first, last = difference(*two)
    assert (first.low.tolist(), first.high.tolist()) == ([-(10**8), -312500002], [10**8, -312499998])
    assert (last.low[1], last.high[1]) == (-500000002, -499999998)
    assert first.places == 10 and first.zones == {(1, 2): (-(10**9), 10**9)}
    assert last.nets == {"RIVER LEAKAGE": (0, 0), "WELLS": (0, 0)}


@pytest.mark.parametrize(
    "low, high, said",
    [
        (-312500002, -312499998, "the plan lowers the head here by 0.312 to 0.313 m"),
        (1, 2, "the plan raises the head here by 0.000 to 0.001 m"),
        (-1, 5, "the plan changes the head here by -0.001 to 0.001 m: the bounds don't show which way"),
    ],
)
def test_what_a_change_is_in_a_sentence(low, high, said):
    assert told(low, high, "m") == said


def test_other_cells_or_no_common_step_get_a_sentence(two, tmp_path):
    (tmp_path / "other.heads").write_text(PLAN.replace("HEAD 1 1 2", "HEAD 1 1 3"))
    with pytest.raises(Problem, match="other cells"):
        difference(two[0], read_listing(tmp_path / "other.heads"))
    (tmp_path / "later.heads").write_text(PLAN.replace("STEP 1", "STEP 2"))
    with pytest.raises(Problem, match="none of the periods"):
        difference(two[0], read_listing(tmp_path / "later.heads"))


def test_tables_and_page_of_a_plan(two, tool, tmp_path):
    status, out, err = tool(
        "drawdown", tmp_path / "plan.heads", tmp_path / "base.heads", tmp_path / "out", "--cell", "1,1,2"
    )
    assert (
        status == 0
        and "lowers the head at layer 1 row 1 column 2 by 0.499 to 0.501 m" in out
        and "wasn't checked" in out
    ), (out + err)
    rows = list(csv.DictReader((tmp_path / "out" / "drawdown.csv").open()))
    assert [rows[1][n] for n in ("row", "col", "drawdown_lower", "drawdown_upper")] == [
        "1",
        "2",
        "0.312499998",
        "0.312500002",
    ]
    assert (tmp_path / "out" / "zones_change.csv").read_text().split("\n")[1] == "1,1,1,2,-0.1000000000,0.1000000000"
    page = (tmp_path / "out" / "index.html").read_text()
    assert "drawdown_curves.png" in page and (tmp_path / "out" / "drawdown_curves.png").read_bytes().startswith(
        b"\x89PNG"
    )


@pytest.mark.program
def test_all_plans_of_a_batch_on_one_page(tool, tmp_path):
    for file in (TOP / "examples" / "pumping_plans").iterdir():
        if file.is_file() and file.suffix != ".heads":
            (tmp_path / file.name).write_bytes(file.read_bytes())
    assert tool("plans", tmp_path / "plans.list", tmp_path / "page")[0] == 2
    assert tool("batch", tmp_path / "plans.list")[0] == 0
    status, out, err = tool("plans", tmp_path / "plans.list", tmp_path / "page", "--cell", "1,5,13")
    assert status == 0 and out.count("CERTIFIED") == 3, out + err
    rows = list(csv.DictReader((tmp_path / "page" / "plans.csv").open()))
    assert [r["plan"] for r in rows] == ["one_well.nam", "two_wells.nam"] and rows[1]["drawdown_lower"] == "4.048615549"
    assert "plans1.png" in (tmp_path / "page" / "index.html").read_text()
    words = [tmp_path / f"{name}.heads" for name in ("two_wells", "no_well")] + [tmp_path / "one"]
    status, out, err = tool(
        "drawdown", *words, "--name", tmp_path / "two_wells.nam", "--base-name", tmp_path / "no_well.nam"
    )
    assert status == 0 and "lowers the head at layer 1 row 5 column 13 by 4.048 to 4.049 m" in out, out
    text = Path(words[0]).read_text()
    words[0].write_text(text.replace("HEAD 1 5 13 ", "HEAD 1 5 13 1"))
    assert tool("drawdown", *words, "--name", tmp_path / "two_wells.nam")[0] == 8
