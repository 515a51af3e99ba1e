"""Models with convertible layers: pairs hold the exact heads and flows that are gentle, nothing else is certified."""
import re
from decimal import Decimal
from fractions import Fraction

import numpy as np
import pytest
from conftest import TOP
from water_reference import HOLE, LOWER_HOLE, Small, draw, pumped, tank

import heads_tools
from heads_tools.program.program import checks_convertible
from heads_tools.water.certify_convertible import Bounds, Refused
from heads_tools.water.water_steps import Found
from heads_tools.water.convertible import read_convertible
from heads_tools.water.frozen import Frozen
from heads_tools.water.gentle import first_not_gentle
from heads_tools.listing.listing import read_listing
from heads_tools.water.run_heads import RunHeads
from heads_tools.water.water_steps import steps_of

D = Decimal
ONE = 10**9
pytestmark = pytest.mark.program


def table(nam, cells):
    """A table of heads for certify."""
    path = nam.with_name("run.csv")
    path.write_text("".join(",".join(map(str, (*cell, head))) + "\n" for cell, head in cells.items()))
    return path


def whole_table(nam, model, heads):
    return table(nam, {model.place(c): h for c, h in enumerate(heads) if model.ibound[c]})


def certified(tool, nam, heads, *words):
    """The listing of a call that has to go well, and what it said."""
    status, out, err = tool("certify", nam, heads, "--convertible", *words)
    assert status == 0, out + err
    return read_listing(nam.with_suffix(".certified.heads"), has_convertible=True), out


def guess(nam, model):
    """One head, from which a solve may begin: too few to be looked at."""
    return table(nam, {model.place(next(c for c, n in enumerate(model.ibound) if n > 0)): 18})


def solved(listing, model):
    """The exact solution near the middles of a listing's pairs."""
    grid = [np.full(len(model.ibound), 0.0) for _ in listing.steps]
    at = [((k - 1) * model.shape[1] + i - 1) * model.shape[2] + j - 1 for k, i, j in listing.cells.tolist()]
    for heads, step in zip(grid, listing.steps):
        heads[at] = (step.low + step.high) / 2 / ONE
    return at, model.solution(grid)


# The pumped cell: LPF's equations have two solutions.


def test_of_the_pumped_cell_s_two_solutions_the_gentle_one_is_certified(tmp_path, tool):
    model = pumped("-600")
    nam = model.write(tmp_path)
    listing, out = certified(tool, nam, whole_table(nam, model, [10, 6, 10]))
    low, high = listing.steps[0].low[1], listing.steps[0].high[1]
    assert low < 6 * ONE < high and high - low < 100
    proved = "what that certifies is proved" in out and "to less than 10^-21 m3/d" in out
    tested = "not proved" in out and "to less than 10^-9 m3/d" in out
    assert proved if checks_convertible() else tested
    text = nam.with_suffix(".certified.heads").read_text()
    assert text.startswith("HEADS 2 DIGITS 12 UNIT 2 CONVERTIBLE\nSTEP 1 1\nHEAD 1 1 1 10.000000000 10.000000000\n")
    assert listing.steps[0].terms["WELLS"][2:] == [600 * 10**21] * 2


def test_terms_have_room_for_the_program_s_conductances(tmp_path):
    """At a head h both sides give 400 h (10 - h) / (10 + h) m3/d. Each of the program's two conductances may be off
    by a unit of 10^-12, which at a fall of 4 m is 8 x 10^-12 m3/d."""
    found = tried(pumped("-600"), tmp_path, [10, 5.999999994, 10], [10, 6.000000006, 10])
    assert isinstance(found, Found)
    at_low, at_high = (400 * h * (10 - h) / (10 + h) for h in (Fraction("5.999999994"), Fraction("6.000000006")))
    least, most = (Fraction(flow, 10**21) for flow in found.terms["CONSTANT HEAD"][:2])
    room = Fraction(8, 10**12)
    assert least <= at_high - room * Fraction("0.999") and at_low + room * Fraction("0.999") <= most
    assert at_high - least < 3 * room and most - at_low < 3 * room


def test_the_other_one_is_refused_and_both_are_named(tmp_path, tool):
    model = pumped("-600")
    nam = model.write(tmp_path)
    status, out, _ = tool("certify", nam, whole_table(nam, model, [10, 2.5, 10]), "--convertible")
    assert status == 8 and out.startswith("NOT CERTIFIED 1 1 1 1 2 GENTLE\n")
    assert "falls by 7.500000000 m" in out and "thickness of the lower cell, 2.500000000 m" in out
    assert "3.49 m or more" in out and "two solutions that differ" in out
    assert not nam.with_suffix(".certified.heads").exists()


def test_a_call_that_is_refused_raises(tmp_path):
    model = pumped("-600")
    nam = model.write(tmp_path)
    with pytest.raises(heads_tools.RunFailed) as failed:
        heads_tools.certify(nam, whole_table(nam, model, [10, 2.5, 10]), convertible=True)
    assert failed.value.status == 8 and failed.value.last == "NOT CERTIFIED 1 1 1 1 2 GENTLE"


def test_the_example_is_the_pumped_cell(tool, tmp_path):
    for file in (TOP / "tools" / "tests" / "pumped_cell").iterdir():
        (tmp_path / file.name).write_bytes(file.read_bytes())
    nam = tmp_path / "p.nam"
    assert tool("certify", nam, tmp_path / "six.csv", "--convertible")[0] == 0
    status, out, _ = tool("certify", nam, tmp_path / "two_and_a_half.csv", "--convertible")
    assert status == 8 and out.startswith("NOT CERTIFIED 1 1 1 1 2 GENTLE")


def test_a_fall_of_just_the_saturated_thickness_has_no_gentle_pair(tmp_path, tool):
    model = pumped("-200", k="3")
    nam = model.write(tmp_path)
    water, _ = read_convertible(nam)
    variable = np.array([False, True, False])
    heads = np.array([10, 5, 10]) * ONE
    assert first_not_gentle(water, heads, heads, variable) is None
    lower = heads - [0, 1, 0]
    assert first_not_gentle(water, lower, heads, variable).cell == 1
    status, out, _ = tool("certify", nam, whole_table(nam, model, [10, 5, 10]), "--convertible")
    assert status == 8 and out.startswith("NOT CERTIFIED 1 1 1 1 2 GENTLE")


# Exact solutions.


@pytest.mark.parametrize("seed, layers, steps", [(1, 1, 0), (2, 1, 3), (3, 2, 0), (4, 2, 2), (5, 3, 2), (6, 3, 0)])
def test_exact_heads_and_flows_lie_between(seed, layers, steps, tmp_path, tool):
    model = draw(seed, layers, steps)
    nam = model.write(tmp_path)
    listing, _ = certified(tool, nam, guess(nam, model))
    at, exact = solved(listing, model)
    assert len(listing.steps) == 1 + steps
    for step, (heads, terms) in zip(listing.steps, exact):
        assert all(low <= heads[c] * ONE <= high for c, low, high in zip(at, step.low.tolist(), step.high.tolist()))
        for name, pair in step.terms.items():
            flows = terms.get(name, [D(0), D(0)])
            for n, flow in enumerate(flows):
                assert pair[2 * n] <= flow * 10**21 <= pair[2 * n + 1], name
                assert pair[2 * n + 1] - pair[2 * n] < 10**18, name
        assert step.width().max() < 20_000


def test_some_random_cells_have_a_water_table_and_others_are_full(tmp_path, tool):
    listing, out = certified(tool, nam := draw(5, 3, 2).write(tmp_path), guess(nam, draw(5, 3, 2)))
    count, cells = map(int, re.search(r"(\d+) of (\d+) cells of convertible layers have a water table", out).groups())
    assert 0 < count < cells == len(listing.cells)


def test_water_comes_from_both_sides_of_a_top(tmp_path, tool):
    """SS * THICK * A is 0.5, SY * A 1000: 1000.5 m3 are 1 m above the top and 1 m below it."""
    model = tank(["-1000.5", "1000.5"])
    nam = model.write(tmp_path)
    listing, _ = certified(tool, nam, table(nam, {(1, 1, 1): 4}))
    for step, head in zip(listing.steps, (4, 6)):
        assert step.low[0] <= head * ONE <= step.high[0] and step.width()[0] < 20_000
    storage = listing.steps[0].terms["STORAGE"]
    assert storage[0] <= 1000.5 * 10**21 <= storage[1] and storage[2] == 0


def test_constant_heads_may_lie_between_two_units(tmp_path, tool):
    """Heads that CHD brings from 10 to 11 m in three steps: h solves 40 H h (H - h) = 600 (H + h)."""
    model = pumped("-600")
    model.ibound, model.periods = [1, 1, 1], [("3", 3, "SS")]
    nam = model.write(tmp_path)
    nam.write_text(nam.read_text() + "CHD 30 m.chd\n")
    nam.with_name("m.chd").write_text("2 0\n2 0\n1 1 1 10 11\n1 1 3 10 11\n")
    listing, _ = certified(tool, nam, table(nam, {(1, 1, 2): 6}))
    for n, step in enumerate(listing.steps, 1):
        known = 10 + D(n) / 3
        half = (40 * known**2 - 600) / (80 * known)
        low, high = step.low.tolist(), step.high.tolist()
        assert low[0] <= known * ONE <= high[0] <= low[0] + 1
        assert low[1] <= (half + (half**2 - 15).sqrt()) * ONE <= high[1] <= low[1] + 100


def test_a_model_of_known_heads_alone_is_certified(tmp_path, tool):
    model = pumped("0")
    model.ibound = [-1, -1, -1]
    nam = model.write(tmp_path)
    listing, _ = certified(tool, nam, table(nam, {(1, 1, 1): 10}))
    assert listing.steps[0].low.tolist() == [10 * ONE] * 3


def test_a_model_that_nothing_holds_has_no_bounds(tmp_path, tool):
    model = pumped("-1")
    model.ibound = [1, 1, 1]
    nam = model.write(tmp_path)
    status, out, err = tool("certify", nam, table(nam, {(1, 1, 1): 10}), "--convertible")
    assert status != 0 and "CERTIFIED for" not in out, out + err
    assert not nam.with_suffix(".certified.heads").exists()


def test_a_layer_whose_laytyp_is_below_0_is_convertible_without_thickstrt(tmp_path, tool):
    model = pumped("-600")
    nam = model.write(tmp_path)
    lpf = nam.with_name("m.lpf")
    lpf.write_text(lpf.read_text().replace("0 -1E+30 0\n1\n", "0 -1E+30 0\n-1\n", 1))
    listing, _ = certified(tool, nam, whole_table(nam, model, [10, 6, 10]))
    assert listing.steps[0].low[1] < 6 * ONE < listing.steps[0].high[1]


def test_a_bed_lies_below_the_water_table(tmp_path, tool):
    """12 m over the bed: resistances 12/2, 2 and 2 under a fall of 10 m carry the recharge of 1 m/d."""
    model = Small((2, 1, 1), [D(20), D(-1)], [D(0), D(-5)], [D(1)] * 2, [1, -1], [D(12), D(2)], [True, True], {0})
    model.vk, model.vkcb, model.rain = D(1), D("0.5"), D(1)
    nam = model.write(tmp_path)
    listing, _ = certified(tool, nam, table(nam, {(1, 1, 1): 11, (2, 1, 1): 2}))
    step = listing.steps[0]
    assert step.low[0] <= 12 * ONE <= step.high[0] and step.width()[0] < 100


# Larger models.

TWRI = {
    "t.nam": "DIS 11 t.dis\nBAS6 12 t.bas\nLPF 13 t.lpf\nWEL 14 t.wel\nDRN 15 t.drn\nRCH 16 t.rch\n",
    "t.dis": "3 15 15 1 1 1\n1 1 0\nCONSTANT 5000\nCONSTANT 5000\n"
    + "".join(f"CONSTANT {z}\n" for z in (200, -150, -200, -300, -350, -450))
    + "86400 1 1 SS\n",
    "t.bas": "FREE\n"
    + ("INTERNAL 1 (FREE) -1\n" + ("-1" + " 1" * 14 + "\n") * 15) * 2
    + "CONSTANT 1\n-999\n"
    + "CONSTANT 0\n" * 3,
    "t.lpf": "0 -1E30 0\n1 0 0\n0 0 0\n1 1 1\n0 0 0\n0 0 0\nCONSTANT .001\nCONSTANT .001\nCONSTANT 1E-6\n"
    "CONSTANT .0001\nCONSTANT .0001\nCONSTANT 5E-7\nCONSTANT .0002\nCONSTANT .0002\n",
    "t.wel": "15 0\n15 0\n3 5 11 -5.\n2 4 6 -5.\n2 6 12 -5.\n"
    + "".join(f"1 {i} {j} -5.\n" for i in (9, 11, 13) for j in (8, 10, 12, 14)),
    "t.drn": "9 0\n9 0\n"
    + "".join(f"1 8 {j} {e} 1.\n" for j, e in zip(range(2, 11), (0, 0, 10, 20, 30, 50, 70, 90, 100))),
    "t.rch": "1 0\n0\nCONSTANT 3E-8\n",
}
# Layer 1, row 1 of the sample, as a program of its own to 60 digits has it, without the constant head.
TWRI_ROW = (24.95, 44.01, 59.26, 71.83, 82.52, 91.91, 100.0, 106.9, 112.6, 117.4, 121.3, 124.3, 126.4, 127.5)


def test_the_sample_of_the_first_manual(tmp_path, tool):
    for name, text in TWRI.items():
        (tmp_path / name).write_text(text)
    nam = tmp_path / "t.nam"
    listing, _ = certified(tool, nam, table(nam, {(1, 1, 2): 25}), "--digits", "13")
    assert listing.widest()[0] < 20_000
    row = [listing.steps[0].low[n] / ONE for n in range(1, 15)]
    assert all(abs(a - b) <= 6e-4 * b for a, b in zip(row, TWRI_ROW))


def valley(example, wells="-600", transient=False):
    """The valley with the water table in it."""
    nam = example("river_valley")
    put = lambda name, text: (nam.with_name(name)).write_text(text)
    read = lambda name: nam.with_name(name).read_text()
    put("m.dis", read("m.dis").replace("CONSTANT 5\nCONSTANT -15\n", "CONSTANT 20\nCONSTANT 0\n"))
    put("m.lpf", read("m.lpf").replace("0 -1E+30 0\n0\n", "0 -1E+30 0\n1\n", 1))
    put("m.wel", read("m.wel").replace("-1500", wells))
    return nam


def test_the_valley_with_a_water_table(example, tool):
    nam = valley(example)
    listing, out = certified(tool, nam, table(nam, {(1, 1, 1): 12}))
    assert "600 of 600 cells of convertible layers have a water table" in out and listing.widest()[0] < 4000


def test_wells_that_the_aquifer_cannot_bring_water_to_are_refused(example, tool):
    nam = valley(example, wells="-1500")
    status, out, _ = tool("certify", nam, table(nam, {(1, 1, 1): 12}), "--convertible")
    assert status == 8 and re.match(r"NOT CERTIFIED 1 1 1 \d+ 17 GENTLE\n", out), out


# Signs and gentle heads: what each test is of, and what a wrong one would let through.


def parts(model, folder, digits=12):
    """The model, its bounds, and the data of its first step."""
    water, _ = read_convertible(model.write(folder))
    run = RunHeads(folder / "none", {}, water)
    return water, Bounds(water, run, digits, (1.5,), False), next(steps_of(water))


class Chosen:
    """A solver that says what it is told to."""

    def __init__(self, low, high):
        self.pair = low, high

    def solve(self, heads, old, factor):
        return np.array(self.pair[factor > 0], float)


def tried(model, folder, low, high, old=None):
    water, bounds, data = parts(model, folder)
    old = old or (np.array(low), np.array(high))
    old = tuple((np.array(side, float) * ONE).astype(np.int64) for side in old)
    return bounds.tried(data, Chosen(low, high), old, None, 1.5)


def test_a_pair_round_the_solution_passes(tmp_path):
    assert isinstance(tried(pumped("-600"), tmp_path, [10, 5.9, 10], [10, 6.1, 10]), Found)


def test_the_low_side_has_the_saturated_thickness_of_the_lower_heads(tmp_path):
    """At 6.05 m the cell gets 595.6 m3/d; with a thickness of 6.5 m it would get 622."""
    ended = tried(pumped("-600"), tmp_path, [10, 6.05, 10], [10, 6.5, 10])
    assert isinstance(ended, Refused) and ended.ended.last == "NOT CERTIFIED 1 1 1 1 2 LOW"


def test_the_high_side_has_the_saturated_thickness_of_the_upper_heads(tmp_path):
    ended = tried(pumped("-600"), tmp_path, [10, 5.5, 10], [10, 5.95, 10])
    assert isinstance(ended, Refused) and ended.ended.last == "NOT CERTIFIED 1 1 1 1 2 HIGH"


def test_each_side_has_the_stored_water_of_its_own_old_heads(tmp_path):
    """From 3 to 4 m the tank may hold 3.5 m still: no side is strict at a pair that the other's water would pass."""
    old = [3], [4]
    low = tried(tank(["0"]), tmp_path, [3.5], [4.5], old)
    assert isinstance(low, Refused) and low.ended.last == "NOT CERTIFIED 1 1 1 1 1 LOW"
    high = tried(tank(["0"]), tmp_path, [2.5], [3.5], old)
    assert isinstance(high, Refused) and high.ended.last == "NOT CERTIFIED 1 1 1 1 1 HIGH"
    found = tried(tank(["0"]), tmp_path, [2.9], [4.1], old)
    assert isinstance(found, Found)
    room = [flow - exact for flow, exact in zip(found.terms["STORAGE"], (0, 1100 * 10**21, 0, 1100 * 10**21))]
    assert room[0] == room[2] == 0 and all(0 < more < 3 * 10**9 for more in room[1::2])  # of two units for each 10^-9 m


@pytest.mark.parametrize("side", (0, 1))
def test_a_balance_of_0_is_no_sign(side, tmp_path):
    water, _, data = parts(pumped("-600"), tmp_path)
    for moved, is_strict in ((0, False), (1, True)):
        heads = np.array([10, 6, 10]) * ONE + [0, 10 * moved * (1 if side else -1), 0]
        frozen = Frozen(water, data, 12, side, heads, heads)
        assert (frozen.wrong_sign() is None) == is_strict
        assert (frozen.check(False) == "CERTIFIED") == is_strict


@pytest.mark.parametrize("flow, is_strict", (("0.0000000009", False), ("0.0000000010", True)))
def test_a_balance_of_one_unit_is_a_sign(flow, is_strict, tmp_path):
    """All heads at 10 m: the balance is the well's flow."""
    water, _, data = parts(pumped(flow), tmp_path)
    heads = np.array([10, 10, 10]) * ONE
    frozen = Frozen(water, data, 12, 0, heads, heads)
    assert (frozen.wrong_sign() is None) == is_strict == (frozen.check(False) == "CERTIFIED")


def test_the_greatest_head_of_a_neighbour_counts_for_gentle(tmp_path):
    """Lower heads 5.1 and 10 are gentle, upper ones 5.4 and 10.5, too; 5.1 beside 10.5 isn't."""
    model = pumped("0")
    model.ibound = [1, 1, -1]
    water, _ = read_convertible(model.write(tmp_path))
    low, high = (np.array([int(h * ONE) for h in heads]) for heads in ((10, 5.1, 6), (10.5, 5.4, 6)))
    variable = np.array([True, True, False])
    assert first_not_gentle(water, low, low, variable) is None and first_not_gentle(water, high, high, variable) is None
    assert first_not_gentle(water, low, high, variable).cell == 1
    ended = tried(model, tmp_path, low / ONE, high / ONE)
    assert isinstance(ended, Refused) and ended.ended.last == "NOT CERTIFIED 1 1 1 1 2 GENTLE"


def test_the_first_cell_with_flow_of_a_column_has_the_water_table(tmp_path):
    model = draw(5, 3, 2)
    water, _ = read_convertible(model.write(tmp_path))
    size = model.size
    assert not water.has_table[HOLE] and water.has_table[size + HOLE] and water.has_table[HOLE - 1]
    assert water.has_table[2 * size + LOWER_HOLE] and not water.has_table[2 * size + HOLE]


@pytest.mark.parametrize("seed, layers", [(11, 1), (12, 2), (13, 3)])
def test_heads_moved_by_twice_the_width_are_not_certified(seed, layers, tmp_path, tool):
    model = draw(seed, layers, 0)
    nam = model.write(tmp_path)
    listing, _ = certified(tool, nam, guess(nam, model))
    water, _ = read_convertible(nam)
    data, step = next(steps_of(water)), listing.steps[0]
    low, high = (np.zeros(len(water.active), np.int64) for _ in (0, 1))
    low[water.active], high[water.active] = step.low, step.high
    cell = int(np.flatnonzero(data.is_variable)[len(step.low) // 3])
    by = 2 * int(high[cell] - low[cell])
    for side, heads in ((0, low), (1, high)):
        assert Frozen(water, data, 12, side, heads, heads).check(False) == "CERTIFIED"
        heads[cell] += by if side == 0 else -by
        moved = Frozen(water, data, 12, side, heads, heads)
        assert moved.wrong_sign() == cell
        assert moved.check(False) == f"NOT CERTIFIED 1 1 {water.name(cell)} {('LOW', 'HIGH')[side]}"
