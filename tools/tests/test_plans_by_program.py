"""What a plan does as the program itself lists it (`heads run --plan`): known figures, and what is said of them."""
import csv
from fractions import Fraction

import pytest
from conftest import heads
from test_map_page import data_in
from test_weather import KNOWN, VALLEYS, deck_of, valleys, well_file

from heads_tools.planning.drawdown_weather import Asked, weathered
from heads_tools.program.explain import explain
from heads_tools.program.program import checks_plans

pytestmark = [pytest.mark.program, pytest.mark.plans]


def units(words):
    return [round(Fraction(word) * 10**9) for word in words.split()]


@pytest.mark.parametrize("name, well, recharge, is_any, expected", KNOWN)
def test_the_listed_drawdown_lies_within_that_of_the_independent_program(
    example, tmp_path, name, well, recharge, is_any, expected
):
    """In any weather at all the bounds may be wider than in the deck's own."""
    base, high = deck_of(example, name, recharge)
    periods = int((base.parent / "m.dis").read_text().split()[3]) if is_any else 1
    it = weathered(Asked(base, well_file(tmp_path, well, periods=periods), high), tmp_path / "made")
    last = it.effects[-1]
    at = it.listing.at(tuple(map(int, well.split()[:3])))
    low, high_ = units(expected)
    assert it.is_listed and it.holds and low <= last.low[at] <= last.high[at] <= high_
    assert is_any or (last.low[at], last.high[at]) == (low, high_)


@pytest.mark.parametrize("rate, higher, connected, expected", VALLEYS)
def test_a_river_that_falls_dry_in_some_weathers_widens_it(example, tmp_path, rate, higher, connected, expected):
    low, high = valleys(example("valley_between").with_name("from.nam"), higher)
    it = weathered(Asked(low, well_file(tmp_path, f"1 8 17 -{rate}"), high), tmp_path / "made")
    at, effect = it.listing.at((1, 8, 17)), it.effects[0]
    least, most = units(expected)
    assert it.is_listed and it.ramps[0] == connected
    assert abs(int(effect.low[at]) - least) <= 1000 and abs(int(effect.high[at]) - most) <= 1000


@pytest.fixture
def valley(example, tmp_path):
    return example("valley_between").with_name("from.nam"), well_file(tmp_path, "1 8 17 -1500")


def test_drawdown_takes_the_programs_listing_and_says_what_was_checked(valley, tool, tmp_path):
    nam, wells = valley
    words = "drawdown", nam, wells, "--to", "to.nam", tmp_path / "out", "--cell", "1,8,15", "--at", "pond,450,1000"
    status, out, err = tool(*words)
    assert status == 0 and "DRAWDOWN 1 8 17 5.378731366 5.378731629" in out and "pond: at the end of" in out, out + err
    assert "Not proved by machine" not in out and not (tmp_path / "out" / "difference_low.nam").exists()
    page, scene = (tmp_path / "out" / "index.html").read_text(), data_in(tmp_path / "out")
    named = [("head", "head"), ("head without the plan", "head"), ("drawdown", "fall")]
    assert [(field["name"], field["kind"]) for field in scene["fields"]] == named and scene["tops"]
    if checks_plans():
        assert "heads check: CERTIFIED (drawdown.heads)" in out and "Checked by" in page
    else:
        assert "heads run: END (drawdown.heads)" in out and "takes no listing of what a plan does" in out
        assert "those of a run of `heads` that ended with END" in out and "Listed by" in page
    with (tmp_path / "out" / "drawdown.csv").open() as file:
        row = next(row for row in csv.DictReader(file) if (row["row"], row["col"]) == ("8", "17"))
    assert (row["drawdown_lower"], row["drawdown_upper"]) == ("5.378731366", "5.378731629")


def test_a_listing_that_was_made_before_counts_where_it_was_checked_alone(valley, tool, tmp_path):
    nam, wells = valley
    nam.with_name("plan.wel").write_bytes(wells.read_bytes())
    (tmp_path / "l.heads").write_text(heads(["run", "from.nam", "--plan", "plan.wel"], nam.parent).stdout)
    words = "look", tmp_path / "l.heads", tmp_path / "out", "--name", nam, "--plan", wells, "--at", "pond,450,1000"
    status, out, err = tool(*words)
    assert "pond: at the end of" in out, out + err
    if checks_plans():
        assert status == 0 and "CERTIFIED (l.heads)" in out, out + err
    else:
        assert status == 2 and "Not checked" in out and "Nothing may be said" in out, out + err


def test_a_run_with_a_plan_shows_its_progress_and_is_not_watched(valley, tool):
    nam, wells = valley
    nam.with_name("plan.wel").write_bytes(wells.read_bytes())
    status, out, err = tool("run", nam, "--to", "to.nam", "--plan", "plan.wel")
    assert status == 0 and "from-to-plan.heads" in out and "drawdown: 1 step of 600 cells" in out, out + err


@pytest.mark.parametrize(
    "last, said",
    [
        ("NOBOUND 24 NoBarrierLow 1 1 1 8 17 PLAN", "1 8 17 (layer row column), with the plan's wells: Nothing holds"),
        ("NOBOUND 23 FlowTooLarge 1 1 IN STORAGE DRAWDOWN", "at IN STORAGE, of what the plan does: A flow"),
        ("NOBOUND 24 NoBarrierLow 1 1 1 8 17", "at 1 8 17 (layer row column): Nothing holds"),
        ("UNFINISHED 1 1 PLAN", "step 1, with the plan's wells needs more rounds"),
        ("UNFINISHED 1 1", "step 1 needs more rounds"),
        ("NOT CERTIFIED 1 1 SOURCE RIVER LEAKAGE", "SOURCE RIVER LEAKAGE is the first place that fails"),
    ],
)
def test_the_part_of_a_step_that_ended_a_plans_listing_is_said(last, said, tmp_path):
    lines = explain(last, tmp_path).lines
    assert said in lines[0] and ("SOURCE" not in last or "certify" not in lines[1]), lines
