"""Heads and drawdowns at points of a listing of what a plan's wells do, and whether the heads of two runs lie inside
it. The listings of plan_listing/ are those of an independent program; heads that have to lie inside are exact
solutions."""
import csv
import re
import shutil

import pytest
from conftest import TOOLS
from plan_heads import exact_heads, write_heads

import heads_tools
from heads_tools import Problem, read_plan_listing

pytestmark = [pytest.mark.program, pytest.mark.plans]
DECKS = TOOLS / "tests" / "plan_listing"
ONE, TWO = ["one.txt"], ["two.txt", "--to", "h.nam"]


@pytest.fixture
def decks(tmp_path):
    return shutil.copytree(DECKS, tmp_path / "decks")


@pytest.fixture
def observed(decks, tool):
    """The rows of `observe`, and what it says, of a listing and a table of points."""

    def observe(listing, table, *words, status=0):
        (decks / "points.csv").write_text(table)
        given = "--name", decks / "m.nam", "--plan", decks / "plan.wel", *listing[1:]
        done, out, err = tool("observe", decks / listing[0], decks / "points.csv", *given, *words)
        assert done == status, out + err
        return list(csv.DictReader(out.splitlines())), err

    return observe


def pair(row, name=""):
    return row[f"{name}lower"], row[f"{name}upper"]


def test_what_was_measured_is_the_head_without_the_plan(observed):
    rows, said = observed(TWO, "name,row,col,time,measured\nP,1,2,40,10.3\nQ,1,2,40,10.6\n")
    assert [pair(row) for row in rows] == [("10.057343530", "10.594736311")] * 2
    assert [row["measured_less_upper"] for row in rows] == ["-0.294736311", "0.005263689"]
    assert "heads check: CERTIFIED. The exact heads of both plans" in said
    assert "Measured less head without the plan's wells, 2 values" in said
    assert "1 of 2 measured heads are of no exact solution" in said


def test_measured_drawdowns_stand_beside_both_heads(observed):
    rows, said = observed(TWO, "name,row,col,measured\nP,1,2,0.95\n", "--part", "drawdown,base,plan")
    assert [row["time"] for row in rows] == ["12", "30", "40"]
    last = rows[-1]
    assert pair(last) == ("0.456001505", "0.979309253")
    assert pair(last, "base_") == ("10.057343530", "10.594736311")
    assert pair(last, "plan_") == ("9.303245781", "10.045375930")
    assert [row["measured_less_upper"] for row in rows] == ["0.164104233", "0.020791649", "-0.029309253"]
    assert "Measured less drawdown, 3 values" in said and "2 of 3 measured drawdowns are of no exact solution" in said


@pytest.mark.parametrize(
    "listing, part, due",
    [
        # Half way from STRT, 10 in the one deck and 10.25 in the other, to the end of the first step at 12 days.
        (ONE, "BASE", ("10.028218359", "10.028218361")),
        (TWO, "BASE", ("10.028049917", "10.406725388")),
        (TWO, "PLAN", ("9.701975796", "10.151692367")),
        # Both plans begin with the same heads, whatever they are.
        (ONE, "DRAWDOWN", ("0.243347997", "0.243348000")),
        (TWO, "DRAWDOWN", ("0.216249963", "0.392947884")),
    ],
)
def test_within_the_first_step_it_goes_straight_from_the_start(observed, listing, part, due):
    rows, _ = observed(listing, "name,row,col,time\nP,1,2,6\n", "--part", part)
    assert pair(rows[0]) == due


def test_between_cells_each_weight_takes_the_bound_of_its_side(observed):
    """A quarter of a cell beyond the middle of cell 2: 3/4 of it and 1/4 of cell 3."""
    rows, _ = observed(ONE, "name,x,y,time\nP,175,25,40\n", "--between", "--part", "DRAWDOWN")
    assert pair(rows[0]) == ("0.500298620", "0.500298628")


def test_a_hob_file_has_heads_of_either_plan_and_no_drawdowns(observed):
    hob = "# heads\n1 0 0 0 -888\n1.0\nA 1 1 2 1 40 0 0 9.6\n"
    rows, said = observed(TWO, hob, "--part", "PLAN")
    assert pair(rows[0]) == ("9.303245781", "10.045375930") and "Measured less head with the plan's wells" in said
    _, said = observed(TWO, hob, "--part", "DRAWDOWN", status=2)
    assert "is a HOB file, which has heads" in said


def test_points_without_a_head_have_empty_bounds_of_all_parts(observed):
    rows, said = observed(ONE, "name,row,col,time\nP,1,2,40\nlate,1,2,41\n", "--part", "BASE,DRAWDOWN")
    assert pair(rows[1]) == pair(rows[1], "drawdown_") == ("", "") and "late has no head" in said


@pytest.mark.parametrize(
    "words, said",
    [
        (["--plan", "plan.wel", "--pest", "pest"], "--pest calibrates by the heads of one deck"),
        (["--plan", "plan.wel", "--part", "HEAD"], "a part is BASE, PLAN or DRAWDOWN"),
        ([], "name the base deck and the wells"),
    ],
)
def test_what_is_not_possible_is_refused(decks, tool, words, said):
    (decks / "points.csv").write_text("name,row,col\nP,1,2\n")
    files = [decks / word if "." in word else word for word in words]
    status, out, err = tool("observe", decks / "one.txt", decks / "points.csv", "--name", decks / "m.nam", *files)
    assert status == 2 and said in err and not out, out + err


def test_a_picture_and_a_table_of_a_call(decks, tmp_path):
    (decks / "points.csv").write_text("name,row,col,measured\nP,1,2,0.5\n")
    listing, words = read_plan_listing(decks / "two.txt"), {"plan": decks / "plan.wel", "to": decks / "h.nam"}
    words |= {"part": "DRAWDOWN,PLAN", "picture": tmp_path / "p.png", "quiet": True}
    answer = heads_tools.observe(listing, decks / "points.csv", decks / "m.nam", **words)
    assert answer.is_good and answer.lines[0].endswith(",cells,plan_lower,plan_upper") and len(answer.lines) == 4
    assert (tmp_path / "p.png").read_bytes().startswith(b"\x89PNG")


@pytest.mark.parametrize("listing, high, seed", [(ONE, "m.nam", 0), *((TWO, "h.nam", seed) for seed in (1, 2, 3))])
def test_exact_heads_of_both_plans_lie_inside_and_others_outside(decks, tool, tmp_path, listing, high, seed):
    steps = exact_heads(decks, high, seed)
    base, plan = (write_heads(tmp_path / f"{name}.csv", steps, n) for n, name in enumerate(("base", "plan")))
    words = ["inside", decks / listing[0], "--name", decks / "m.nam", "--plan", decks / "plan.wel", *listing[1:]]
    words += ["--heads", base, "--plan-heads", plan]
    status, out, err = tool(*words)
    assert status == 0 and "INSIDE: the exact heads of both plans" in out, out + err
    for part in ("BASE", "PLAN", "DRAWDOWN"):
        assert f"{part}: all of 15 given numbers lie inside" in out
    write_heads(plan, steps, 1, {(1, 2, 3): -2})
    status, out, err = tool(*words)
    assert status == 1 and "OUTSIDE: no exact heads of both plans" in out and "BASE: all of 15" in out, out + err
    for part in ("PLAN", "DRAWDOWN"):
        assert f"{part}: 1 of 15 given numbers lie outside, the furthest by" in out
    assert out.count("layer row column 1 1 3, period 1 step 2") == 2
    status, out, err = tool(*words, "--within", "2.001")
    assert status == 0 and "INSIDE, to 2.001 m: the exact heads" in out, out + err


def test_the_distance_outside_is_that_of_fractions(decks, tool, tmp_path):
    """The drawdown of cell 2 is at most 0.979309253; heads 1.25 apart, which doubles hold, lie 0.270690747 beyond."""
    steps = exact_heads(decks, "h.nam")
    base, plan = (write_heads(tmp_path / f"{name}.csv", steps, n) for n, name in enumerate(("base", "plan")))
    for path, head in ((base, "10.5"), (plan, "9.25")):
        path.write_text(re.sub(r"^(2,1,1,1,2,).*$", rf"\g<1>{head}", path.read_text(), flags=re.M))
    words = {"name": decks / "m.nam", "plan": decks / "plan.wel", "to": "h.nam", "heads": base, "plan_heads": plan}
    answer = heads_tools.inside(read_plan_listing(decks / "two.txt"), **words)
    said = "DRAWDOWN: 1 of 15 given numbers lie outside, the furthest by 0.27 m or more at layer row column 1 1 2"
    assert answer.status == 1 and any(line.startswith(said) for line in answer.lines), str(answer)
    assert heads_tools.inside(decks / "two.txt", **words, within="0.270690748").is_good
    assert heads_tools.inside(decks / "two.txt", **words, within="0.270690746").status == 1


def test_nothing_is_said_of_exact_heads_by_a_listing_that_is_not_certified(decks, tool, tmp_path):
    text = (decks / "one.txt").read_text().replace("DRAWDOWN 1 1 2 0.486695994", "DRAWDOWN 1 1 2 0.486695999")
    (decks / "one.txt").write_text(text)
    steps = exact_heads(decks)
    base, plan = (write_heads(tmp_path / f"{name}.csv", steps, n) for n, name in enumerate(("base", "plan")))
    words = "--name", decks / "m.nam", "--plan", decks / "plan.wel", "--heads", base, "--plan-heads", plan
    status, out, err = tool("inside", decks / "one.txt", *words)
    assert status == 8 and "NOT CERTIFIED" in out and "INSIDE" not in out and "OUTSIDE" not in out, out + err
    assert "DRAWDOWN: 1 of 15 given numbers lie outside" in out


def test_steps_and_cells_without_heads_are_counted(decks, tool, tmp_path):
    steps = exact_heads(decks)
    base, plan = (write_heads(tmp_path / f"{name}.csv", steps, n) for n, name in enumerate(("base", "plan")))
    plan.write_text("".join(line + "\n" for line in plan.read_text().split("\n") if line.startswith("1,")))
    words = "--name", decks / "m.nam", "--plan", decks / "plan.wel", "--heads", base, "--plan-heads", plan
    status, out, err = tool("inside", decks / "one.txt", *words)
    assert status == 0 and "BASE: all of 15 given numbers lie inside\n" in out, out + err
    assert out.count("all of 10 given numbers lie inside; the listing has 15") == 2


def test_inside_asks_for_what_it_needs(decks, tmp_path):
    nam, wells = decks / "m.nam", decks / "plan.wel"
    with pytest.raises(Problem, match="--heads BASE.HDS and --plan-heads PLAN.HDS"):
        heads_tools.inside(decks / "one.txt", name=nam, plan=wells)
    with pytest.raises(Problem, match="--plan goes with a listing of what a plan does"):
        heads_tools.inside(nam, plan=wells)
    (tmp_path / "h.csv").write_text("9,9,1,1,1,5\n")
    with pytest.raises(Problem, match="have no heads of the listing's cells at its periods and steps, as BASE needs"):
        words = {"heads": tmp_path / "h.csv", "plan_heads": tmp_path / "h.csv"}
        heads_tools.inside(decks / "one.txt", name=nam, plan=wells, **words)
