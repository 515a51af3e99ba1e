"""Heads at points: between cells, in several layers, between the ends of steps; HOB files and tables."""
import csv
import itertools
import random
import re
from fractions import Fraction
from types import SimpleNamespace

import numpy as np
import pytest

import heads_tools
from heads_tools import Place, Problem, read_model
from heads_tools.listing.between import Spot, mixed, weights_of
from heads_tools.listing.listing import Listing
from heads_tools.deck.model import exact_ends
from heads_tools.listing.points import Points
from heads_tools.deck.sources import Array

WIDTHS, DEPTHS = "10 20 35 5".split(), "7.5 2.5 40".split()


def grid(without=()):
    """A model of 3 rows and 4 columns of other widths, and a listing of its cells but for some of (row, col)."""
    deck = SimpleNamespace(nrow=3, ncol=4, delr=Array(WIDTHS, "1", (1, 4)), delc=Array(DEPTHS, "1", (1, 3)))
    cells = [(1, i, j) for i in range(1, 4) for j in range(1, 5) if (i, j) not in without]
    return SimpleNamespace(deck=deck), Listing(None, 9, 2, [], np.array(cells))


def middle(widths, at):
    return sum(map(Fraction, widths[: at - 1]), Fraction(0)) + Fraction(widths[at - 1]) / 2


def on_plane(i, j):
    return 3 + 2 * middle(WIDTHS, j) - 5 * middle(DEPTHS, i)


SIDES = [(), ((2, 3),), ((3, 2),), ((3, 3),), ((2, 1),), ((1, 2),), ((1, 1),), ((1, 3),), ((3, 1),)]


@pytest.mark.parametrize("without", SIDES)
@pytest.mark.parametrize("down, across", itertools.product(["-0.5", "-0.2", "0", "0.37"], ["-0.41", "0", "0.5"]))
def test_a_plane_of_heads_is_met_between_cells_exactly(without, down, across):
    """Four cells, three and two next to each other are enough for a plane."""
    model, listing = grid(without)
    weights = weights_of(listing, model, Spot((1, 2, 2), Fraction(down), Fraction(across)))
    x = middle(WIDTHS, 2) + Fraction(across) * 20
    y = middle(DEPTHS, 2) + Fraction(down) * Fraction("2.5")
    assert sum(weights.values()) == 1 and all(map(listing.has, weights))
    if len(weights) > (down != "0") + (across != "0"):
        assert sum(w * on_plane(i, j) for (_, i, j), w in weights.items()) == 3 + 2 * x - 5 * y


def test_four_cells_are_weighted_as_rectangles():
    model, listing = grid()
    weights = weights_of(listing, model, Spot((1, 2, 2), Fraction(1, 5), Fraction(1, 4)))
    r, c = Fraction("0.5") / Fraction("21.25"), Fraction(5) / Fraction("27.5")
    assert weights == {
        (1, 2, 2): (1 - r) * (1 - c),
        (1, 2, 3): (1 - r) * c,
        (1, 3, 2): r * (1 - c),
        (1, 3, 3): r * c,
    }


def test_at_the_edge_and_beside_cells_without_flow_fewer_cells_are_taken():
    whole, corner, alone = grid(), grid(((2, 3), (3, 2))), grid(((2, 3), (3, 2), (3, 3)))
    south_east = lambda row, col: Spot((1, row, col), Fraction(1, 2), Fraction(1, 2))
    assert weights_of(whole[1], whole[0], south_east(3, 4)) == {(1, 3, 4): 1}
    assert set(weights_of(whole[1], whole[0], south_east(3, 2))) == {(1, 3, 2), (1, 3, 3)}
    assert weights_of(corner[1], corner[0], south_east(2, 2)) == {(1, 2, 2): 1}
    assert weights_of(alone[1], alone[0], south_east(2, 2)) == {(1, 2, 2): 1}
    with pytest.raises(Problem, match="has no flow"):
        weights_of(corner[1], corner[0], south_east(2, 3))
    with pytest.raises(Problem, match="-0.5 to 0.5"):
        weights_of(whole[1], whole[0], Spot((1, 1, 1), Fraction(3, 5)))


def test_shares_of_layers_are_added():
    model, listing = grid()
    first, second = (weights_of(listing, model, Spot((1, 2, j), Fraction(0), Fraction(1, 4))) for j in (2, 3))
    both = mixed([(first, Fraction(1, 4)), (second, Fraction(3, 4))])
    assert sum(both.values()) == 1
    assert both[1, 2, 3] == Fraction(1, 4) * first[1, 2, 3] + Fraction(3, 4) * second[1, 2, 3]


def run(nam):
    answer = heads_tools.run(nam)
    assert answer.is_good
    return nam, read_model(nam), answer.listing


def observed(tool, deck, text, tmp_path, *words):
    (tmp_path / "points").write_text(text)
    status, out, err = tool("observe", deck[2].path, tmp_path / "points", "--name", deck[0], *words)
    return status, list(csv.DictReader(out.splitlines())), err


HOB = """# heads in three aquifers
5 2 3 0 -888.0
1.0
MIDDLE 1 8 8 1 0.0 0.0 0.0 9.5
BETWEEN 2 8 8 1 0.0 -0.25 0.4 9.5
MIXED -2 5 5 1 0.0 0.3 0.1 9.5
1 0.25 3 0.75
TWICE -1 6 6 -2 0 0.5 0.5 0
3 1.0
1
TWICE1 1 0.0 8.125
TWICE2 1 1.0D-1 8.25
"""


@pytest.mark.program
def test_a_hob_file_between_cells_and_in_several_layers(example, tool, tmp_path):
    """Any heads between the listed ones have, so interpolated, a head between lower and upper."""
    deck = nam, model, listing = run(example("three_aquifers"))
    status, rows, err = observed(tool, deck, HOB, tmp_path)
    assert status == 0 and "CERTIFIED" in err and "has no head" not in err
    assert [(r["name"], r["cells"]) for r in rows] == [
        ("MIDDLE", "1"), ("BETWEEN", "4"), ("MIXED", "8"), ("TWICE1", "4"), ("TWICE2", "4")
    ]
    at = listing.at((1, 8, 8))
    assert Fraction(rows[0]["lower"]) * 10**9 == listing.steps[0].low[at]
    assert rows[4]["measured"] == "8.25" and rows[3]["lower"] == rows[4]["lower"]
    points = Points(tmp_path / "points", listing, model).read()
    low, high, random_number = listing.steps[0].low, listing.steps[0].high, random.Random(1)
    for point, row in zip(points, rows):
        for _ in range(50):
            heads = [random_number.choice([a, b, (a + b) // 2]) for a, b in zip(low.tolist(), high.tolist())]
            value = sum(w * heads[listing.at(cell)] for cell, w in point.weights.items())
            assert Fraction(row["lower"]) * 10**9 <= value <= Fraction(row["upper"]) * 10**9
        less = Fraction(row["measured"]) - Fraction(row["upper"]), Fraction(row["measured"]) - Fraction(row["lower"])
        assert (Fraction(row["measured_less_upper"]), Fraction(row["measured_less_lower"])) == less


@pytest.mark.program
@pytest.mark.parametrize(
    "old, new, said",
    [
        ("1 0.25 3 0.75", "1 0.25 3 0.25", "add up to 0.5"),
        ("8 8 1 0.0 0.0 0.0 9.5", "8 8 1 0.0 0.0", "line 4"),
        ("8 8 1 0.0 0.0 0.0 9.5", "8 8 1 0.0 0.0 x 9.5", "line 4"),
    ],
)
def test_what_is_wrong_with_a_hob_file_is_said(old, new, said, example, tool, tmp_path):
    deck = run(example("three_aquifers"))
    status, _, err = observed(tool, deck, HOB.replace(old, new), tmp_path)
    assert status == 2 and said in err


@pytest.mark.program
@pytest.mark.parametrize("time, said", [("7.0", "after the listing's last step"), ("-7.0", "before the start")])
def test_an_observation_outside_the_listing_leaves_the_others(time, said, example, tool, tmp_path):
    deck = run(example("three_aquifers"))
    hob = HOB.replace("8 8 1 0.0 0.0 0.0 9.5", f"8 8 1 {time} 0.0 0.0 9.5")
    status, rows, err = observed(tool, deck, hob, tmp_path)
    assert status == 0 and f"MIDDLE has no head: time {float(time):g} lies {said}" in err
    assert [bool(row["lower"]) for row in rows] == [False, *[True] * (len(rows) - 1)]


@pytest.mark.program
def test_an_observation_without_a_head_leaves_the_others(example, tool, tmp_path):
    deck = run(example("three_aquifers"))
    status, rows, err = observed(tool, deck, HOB.replace("MIDDLE 1 8 8", "MIDDLE 1 80 8"), tmp_path)
    assert status == 0 and "MIDDLE has no head: cell 1,80,8 has no flow, or lies outside the grid" in err
    assert rows[0]["lower"] == rows[0]["upper"] == "" and rows[0]["measured"] == "9.5" and len(rows) == 5


@pytest.mark.program
def test_between_two_ends_a_head_lies_on_the_straight_line(example, tool, tmp_path):
    """In the first step it begins at STRT; steady periods have the head of their end."""
    deck = nam, model, listing = run(example("pumping_test"))
    ends = [float(end) for end in exact_ends(model.deck).values()]
    assert ends == pytest.approx([end for _, end in model.times.values()])
    half, first = (ends[4] + ends[5]) / 2, ends[0] / 2
    text = f"name,row,col,time\nhalf,13,13,{half!r}\nfirst,13,13,{first!r}\nend,13,13,{ends[5]!r}\n"
    status, rows, err = observed(tool, deck, text, tmp_path)
    at, steps = listing.at((1, 13, 13)), listing.steps
    assert status == 0, err
    strt = model.strt[0, 12, 12]
    for row, old, step in ((rows[0], steps[4].low[at] / 1e9, 5), (rows[1], strt, 0)):
        assert float(row["lower"]) == pytest.approx((old + steps[step].low[at] / 1e9) / 2, abs=3e-9)
        assert float(row["lower"]) <= float(row["upper"])
    assert rows[2]["lower"] == f"{steps[5].low[at] / 1e9:.9f}"


@pytest.mark.program
def test_points_of_a_map_lie_between_cells_where_asked(example, tool, tmp_path):
    deck = nam, model, listing = run(example("river_valley"))
    place = Place(100, 200, 30)
    x, y = place.world(model.delr[0] * 16.75, model.delc.sum() - model.delc[0] * 7.25)
    text = f"name,x,y\nwell,{x},{y}\n"
    low = lambda i, j: Fraction(int(listing.steps[0].low[listing.at((1, i, j))]), 10**9)
    expected = (low(8, 17) * 9 + low(8, 18) * 3 + low(7, 17) * 3 + low(7, 18)) / 16
    _, rows, _ = observed(tool, deck, text, tmp_path, "--at", "100,200,30", "--between")
    assert float(rows[0]["lower"]) == pytest.approx(float(expected), abs=2e-9) and rows[0]["cells"] == "4"
    _, rows, _ = observed(tool, deck, text, tmp_path, "--at", "100,200,30")
    assert Fraction(rows[0]["lower"]) == low(8, 17) and rows[0]["cells"] == "1"


@pytest.mark.program
def test_a_listing_that_was_changed_is_not_passed_over(example, tool, tmp_path):
    """One lower head is raised by 0.001: the table is there, the status and a sentence say that it isn't certified."""
    deck = nam, model, listing = run(example("river_valley"))
    text = listing.path.read_text()
    listing.path.write_text(text.replace("HEAD 1 8 17 7.138", "HEAD 1 8 17 7.139", 1))
    status, rows, err = observed(tool, deck, "name,row,col\nwell,8,17\n", tmp_path)
    assert status == 8 and "NOT CERTIFIED" in err and rows[0]["lower"] == "7.139119734"


@pytest.mark.program
def test_a_table_of_a_european_spreadsheet_is_read(example, tool, tmp_path):
    """Semicolons, decimal commas, CR LF, the mark of UTF-8, and letters that aren't ASCII."""
    deck = run(example("river_valley"))
    text = "\ufeffName;X;Y;measured\r\nBr\u00fccke;1650,5;1250,5;7,2\r\n"
    (tmp_path / "points").write_bytes(text.encode())
    words = tmp_path / "points", "--name", deck[0], "--out", tmp_path / "out.csv"
    assert tool("observe", deck[2].path, *words)[0] == 0
    (row,) = csv.DictReader((tmp_path / "out.csv").read_text().splitlines())
    assert (row["name"], row["row"], row["col"], row["measured"]) == ("Br\u00fccke", "8", "17", "7.2")
    assert row["lower"] == "7.138119734"


@pytest.mark.program
def test_a_point_outside_the_grid_leaves_the_others(example, tool, tmp_path):
    deck = run(example("river_valley"))
    text = "name,x,y\nfar,99999,10\nwell,1650,1250\n"
    status, rows, err = observed(tool, deck, text, tmp_path)
    assert status == 0 and "far has no head: x 99999, y 10 lies outside the grid" in err
    assert [(r["name"], r["row"], r["lower"]) for r in rows] == [("far", "", ""), ("well", "8", "7.138119734")]
    assert observed(tool, deck, "name,x,y\nfar,99999,10\n", tmp_path)[0] == 2


@pytest.mark.program
def test_what_was_measured_is_said_in_all_with_bounds(example, tool, tmp_path):
    """One value 0.3 above the upper head and one 0.4 below the lower one: mean -0.05, mean square 0.125."""
    deck = run(example("river_valley"))
    above, below = 7.138119992 + 0.3, 7.138119734 - 0.4
    text = f"name,row,col,measured\na,8,17,{above:.9f}\nb,8,17,{below:.9f}\nc,8,18,\n"
    err = observed(tool, deck, text, tmp_path)[2]
    found = re.search(r"2 values: mean (\S+) to (\S+), root of the mean square (\S+) to (\S+); (\d) of (\d)", err)
    low, high, least, most = map(float, found.groups()[:4])
    assert low <= -0.05 <= high <= low + 2e-6 and least <= 0.125**0.5 <= most <= least + 3e-6
    assert found.groups()[4:] == ("2", "2")


PUMPED = "name,row,col,{},measured,weight\n{}"


@pytest.fixture
def pumped(example):
    return run(example("pumping_test"))


@pytest.mark.program
@pytest.mark.parametrize("date", ["2024-03-01", "1.3.2024", "3/1/2024"])
def test_dates_are_times_since_the_start(date, pumped, tool, tmp_path):
    """The test takes a day. It begins here on the last of February, so that the first of March is time 1, but where day
    and month can be taken for one another."""
    words = ["--start", "2024-02-29"]
    status, rows, err = observed(tool, pumped, f"name,row,col,date\na,1,2,{date}\n", tmp_path, *words)
    if "/" in date:
        assert status == 2 and "line 2: `3/1/2024`: a date is YYYY-MM-DD" in err
        return
    assert status == 0 and rows[0]["date"] == "2024-03-01", err
    _, plain, _ = observed(tool, pumped, "name,row,col,time\na,1,2,1\n", tmp_path)
    assert rows[0]["lower"] == plain[0]["lower"] and rows[0]["time"] == "1" and "date" not in plain[0]


@pytest.mark.program
def test_a_date_has_a_time_of_day_and_needs_a_start(pumped, tool, tmp_path):
    text = "name;row;col;date\na;1;2;29-02-2024 06:00\n"
    status, rows, err = observed(tool, pumped, text, tmp_path, "--start", "2024-02-29")
    assert status == 0 and "row" not in err
    (tmp_path / "points").write_text(text)
    _, out, _ = tool("observe", pumped[2].path, tmp_path / "points", "--name", pumped[0], "--start", "2024-02-29")
    assert out.splitlines()[1].split(",")[4] == "0.25"
    status, _, err = observed(tool, pumped, text, tmp_path)
    assert status == 2 and "line 2" in err and "a date needs that of the model's start" in err


@pytest.mark.program
def test_a_time_outside_the_listing_leaves_the_other_points(pumped, tool, tmp_path):
    text = "name,row,col,time\nlate,1,2,1.5\nearly,1,2,-1\nright,1,2,1\n"
    status, rows, err = observed(tool, pumped, text, tmp_path)
    assert status == 0 and [bool(row["lower"]) for row in rows] == [False, False, True], err
    assert "late has no head: time 1.5 lies after the listing's last step, 1" in err and "early has no head" in err
    status, _, err = observed(tool, pumped, text.replace("right,1,2,1", "late2,1,2,7"), tmp_path)
    assert status == 2 and "no point has a head; late: time 1.5 lies after" in err


@pytest.mark.program
def test_files_for_pest_name_each_observation_where_its_number_stands(pumped, tool, tmp_path):
    """The instructions, followed by hand, find the middle of each pair; names are of 20 letters, once each."""
    name = "Well 7 (deep filter of 1970)"
    points = f"{name},13,14,1,3.5,2\n{name},13,16,1,3.25,\nno head,1,4,1,,\n"
    status, rows, err = observed(tool, pumped, PUMPED.format("time", points), tmp_path, "--pest", tmp_path / "pest")
    assert status == 0 and "2 observations in observed.out" in err, err
    out = (tmp_path / "pest" / "observed.out").read_text().splitlines()
    first, second, *lines = (tmp_path / "pest" / "observed.ins").read_text().splitlines()
    assert first == "pif @" and second[1:-1] in out[0]
    found = {}
    for line, text in zip(lines, out[1:]):
        name, begin, end = re.fullmatch(r"l1 \[(\S{1,20})\](\d+):(\d+)", line).groups()
        found[name] = Fraction(text[int(begin) - 1 : int(end)].strip())
    assert list(found) == ["well_7__deep_filter_", "well_7__deep_filte_2"]
    middles = [(Fraction(r["lower"]) + Fraction(r["upper"])) / 2 for r in rows[:2]]
    assert all(abs(a - b) < Fraction(1, 10**10) for a, b in zip(found.values(), middles))
    assert all(Fraction(r["upper"]) - Fraction(r["lower"]) > Fraction(1, 10**8) for r in rows[:2])
    control = (tmp_path / "pest" / "observed.pst").read_text()
    assert re.search(r"^well_7__deep_filter_ +3.5\d*e\+00 2 heads$", control, re.M)
    assert observed(tool, pumped, PUMPED.format("time", points), tmp_path, "--pest", tmp_path / "pest")[0] == 0  # anew


@pytest.mark.program
def test_a_picture_of_what_was_measured_is_drawn_whole_or_not_at_all(pumped, tool, tmp_path):
    points = "a,1,2,1,3.5,1\nb,1,3,1,3.25,1\n"
    status, _, err = observed(tool, pumped, PUMPED.format("time", points), tmp_path, "--picture", tmp_path / "seen.png")
    assert status == 0 and (tmp_path / "seen.png").read_bytes().startswith(b"\x89PNG") and "seen.png" in err
    for name, text in (("seen.jpg", points), ("none.png", "a,1,2,1,,\n")):
        status, _, err = observed(tool, pumped, PUMPED.format("time", text), tmp_path, "--picture", tmp_path / name)
        assert status == 2 and not (tmp_path / name).exists() and "picture" in err + "picture" * ("draw" in err)
