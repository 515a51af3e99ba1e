"""What a plan does whatever the weather: known figures, exact differences of random plans, and what is refused."""
import csv
import os
import random
import re
from decimal import Decimal
from fractions import Fraction

import pytest
from conftest import heads

from heads_tools import Problem
from heads_tools.planning.drawdown_weather import Asked, weathered
from heads_tools.deck.packages import read_deck
from heads_tools.deck.writing import package_lines
from heads_tools.planning.plan_sources import FLOW_PLACES
from heads_tools.planning.shares import share, word_of

pytestmark = [pytest.mark.program, pytest.mark.spans]
PLANS = int(os.environ.get("PLANS", "30"))
FIRST = int(os.environ.get("FIRST", "0"))
WEATHERS = int(os.environ.get("WEATHERS", "6"))
# The example, the plan's well, the recharge of the other deck, whether any weather; the drawdown where it is deepest at
# the end of the last step, as an independent program lists it.
KNOWN = [
    ("three_aquifers", "3 5 5 -100", None, True, "0.320172052 0.320173385"),
    ("pumping_test", "1 10 10 -50", None, True, "0.136784596 0.136785335"),
    ("tide", "1 1 10 -1", None, True, "0.004081738 0.004082165"),
    ("drained_field", "1 11 8 -2", "0.006", False, "0.097561640 0.097561693"),
    ("drained_field", "1 11 8 -2", "0.02", False, "0.097561640 0.101949721"),
    ("valley_between", "1 8 17 -1500", None, False, "5.378731366 5.378731629"),
]


@pytest.fixture(autouse=True)
def difference_decks(monkeypatch):
    """By difference decks, whatever the program knows."""
    monkeypatch.setattr("heads_tools.planning.drawdown_weather.lists_plans", lambda: False)


def well_file(folder, *entries, periods=1, name="plan.wel"):
    path = folder / name
    path.write_text(f"9 0\n{len(entries)} 0\n" + "".join(f"{e}\n" for e in entries) + "-1 0\n" * (periods - 1))
    return path


def deck_of(example, name, recharge):
    """The base deck of an example and the other end of its weather."""
    nam = example(name)
    if name == "valley_between":
        return nam.with_name("from.nam"), nam.with_name("to.nam")
    if recharge is None:
        return nam, None
    other = nam.with_name("wet.nam")
    other.write_text(nam.read_text().replace("m.rch", "wet.rch"))
    nam.with_name("wet.rch").write_text(f"3\n0\nCONSTANT {recharge}\n")
    return nam, other


@pytest.mark.parametrize("name, well, recharge, is_any, expected", KNOWN)
def test_the_deepest_drawdown_is_that_of_the_independent_program(
    example, tmp_path, name, well, recharge, is_any, expected
):
    base, high = deck_of(example, name, recharge)
    plan = well_file(tmp_path, well, periods=int((base.parent / "m.dis").read_text().split()[3]) if is_any else 1)
    it = weathered(Asked(base, plan, high, is_any), tmp_path / "made")
    last = it.effects[-1]
    at = it.listing.at(tuple(map(int, well.split()[:3])))
    low, high_ = (round(Fraction(word) * 10**9) for word in expected.split())
    assert low <= last.low[at] <= low + 2 and high_ - 2 <= last.high[at] <= high_
    assert last.high[at] == last.high.max() and it.is_certified


# The plan's rate, how much higher the river's bottoms are, how many of its 20 cells are surely connected; the drawdown
# at the well in every weather: recharge 80 to 120 %, stages 0.2 up or down, the other well from 0 to 1,500.
VALLEYS = [
    (1500, "0", 20, "5.378731 5.378732"),
    (1500, "1", 15, "5.378731 5.435910"),
    (2500, "0.8", 10, "8.964552 9.513221"),
    (2500, "1", 2, "8.964552 11.562937"),
]


def valleys(nam, higher):
    """The two ends of the weather, in an example's folder."""
    rows = [line.split() for line in nam.with_name("both.riv").read_text().splitlines() if len(line.split()) == 6]
    for word, shift, rain, other in (("low", "-0.2", "0.00048", -1500), ("high", "0.2", "0.00072", 0)):
        text = nam.read_text().replace("both.riv", f"{word}.riv").replace("from.", f"{word}.")
        nam.with_name(f"{word}.nam").write_text(text)
        moved = [
            [*r[:3], str(Decimal(r[3]) + Decimal(shift)), r[4], str(Decimal(r[5]) + Decimal(higher))] for r in rows
        ]
        nam.with_name(f"{word}.riv").write_text("20\n20 0\n" + "".join(" ".join(row) + "\n" for row in moved))
        nam.with_name(f"{word}.rch").write_text(f"3\n0\nCONSTANT {rain}\n")
        nam.with_name(f"{word}.wel").write_text(f"2\n1 0\n1 14 17 {other}\n")
    return nam.with_name("low.nam"), nam.with_name("high.nam")


@pytest.mark.parametrize("rate, higher, connected, expected", VALLEYS)
def test_a_river_that_falls_dry_in_some_weathers_widens_the_drawdown(
    example, tmp_path, rate, higher, connected, expected
):
    low, high = valleys(example("valley_between").with_name("from.nam"), higher)
    it = weathered(Asked(low, well_file(tmp_path, f"1 8 17 -{rate}"), high), tmp_path / "made")
    at, effect = it.listing.at((1, 8, 17)), it.effects[0]
    low, high = (round(Fraction(word) * 10**9) for word in expected.split())
    assert it.ramps[0] == connected and it.is_certified
    assert abs(int(effect.low[at]) - low) <= 1000 and abs(int(effect.high[at]) - high) <= 1000


def random_plan(folder, seed):
    """How many exact numbers of a random plan lie outside of their bounds, and how many were looked at; None and why,
    where the plan has no bounds."""
    from weather_decks import Decks

    folder.mkdir()
    Decks(random.Random(seed)).write(folder)
    try:
        return outside(folder, seed, is_any=seed % 4 == 3)
    except Problem as error:
        return None, str(error)


def outside(folder, seed, is_any=False, count=WEATHERS):
    """How many exact differences and sources lie outside of the bounds of the decks and the plan of a folder, and how
    many were looked at."""
    from recheck import Fault, Model
    from weather_decks import histories

    it = weathered(Asked(folder / "low.nam", folder / "plan.wel", folder / "high.nam", is_any), folder / "made")
    assert it.is_certified
    os.chdir(folder)
    low, high = Model("low.nam"), Model("high.nam")
    wells = [[(cell, [rate]) for cell, (rate,) in entries] for entries in low.read_list(text("plan.wel"), 1)]
    wrong = seen = 0
    for n in range(count):
        guesses = [[middle(it, each, step) for each in it.heads or [None, None]] for step in range(len(low.times))]
        try:
            found = list(histories(low, high, wells, random.Random(1000 * seed + n), guesses))
        except Fault:
            continue
        for effect, (x, y, more) in zip(it.effects, found):
            for at, cell in enumerate(it.listing.cells.tolist()):
                number = ((cell[0] - 1) * low.nrow + cell[1] - 1) * low.ncol + cell[2] - 1
                difference = (x[number] - y[number]) * 10**9
                wrong += not int(effect.low[at]) <= difference <= int(effect.high[at])
            for name, pairs in effect.sources.sums.items():
                flow = more.get(name, Fraction(0)) * 10**FLOW_PLACES
                for least, most in (pairs, effect.sources.terms[name]):
                    wrong += not least <= flow <= most
            seen += len(it.listing.cells) + 2 * len(effect.sources.sums)
    return wrong, seen


def text(name):
    from recheck import text_of

    return text_of(name)


def middle(it, listing, step):
    """The middles of the listed heads on the whole grid, in fractions; 10 where nothing is listed."""
    out = [Fraction(10)] * it.base.deck.cells
    for at, (layer, row, col) in enumerate(it.listing.cells.tolist() if listing else []):
        number = ((layer - 1) * it.base.deck.nrow + row - 1) * it.base.deck.ncol + col - 1
        heads = listing.steps[step]
        out[number] = Fraction(int(heads.low[at]) + int(heads.high[at]), 2 * 10**9)
    return out


def test_no_exact_difference_of_random_plans_lies_outside(tmp_path, monkeypatch):
    monkeypatch.chdir(tmp_path)
    plans = wrong = looked = 0
    why, seed = {}, FIRST
    while plans < PLANS:
        found, seen = random_plan(tmp_path / f"plan{seed}", seed)
        if found is None:
            why[seen[:60]] = why.get(seen[:60], 0) + 1
        else:
            plans, wrong, looked = plans + 1, wrong + found, looked + seen
            if found or plans % 50 == 0:
                print(f"seed {seed}, plan {plans}: {found} outside; {looked} numbers", flush=True)
        seed += 1
    print(f"{plans} plans of seeds {FIRST} to {seed - 1}, {looked} numbers, {wrong} outside; refused {why}")
    assert wrong == 0 and looked > 40 * plans


@pytest.mark.parametrize("mult, periods", [("1", 4), ("1.5", 1)])
def test_a_river_that_falls_dry_within_a_period_counts_in_its_first_steps(tmp_path, monkeypatch, mult, periods):
    monkeypatch.chdir(tmp_path)
    texts = {
        "dis": "1 1 2 1 4 2\n0\nCONSTANT 10\nCONSTANT 10\nCONSTANT 20\nCONSTANT 10\n4 4 X TR\n".replace("X", mult),
        "bas": "FREE\nCONSTANT 1\n-999\nCONSTANT 12\n",
        "lpf": "0 -1E30 0\n0\n0\n1\n0\n0\nCONSTANT 1\nCONSTANT 1\nCONSTANT 0.01\n",
        "riv": "1\n1 0\n1 1 1 11.5 5 11\n",
    }
    for name, rate in (("low", -32), ("high", -30)):
        for kind, text in (texts | {"wel": f"1\n1 0\n1 1 2 {rate}\n"}).items():
            (tmp_path / f"{name}.{kind}").write_text(text)
        kinds = enumerate(["DIS", "BAS6", "LPF", "RIV", "WEL"], 11)
        lines = (f"{kind} {unit} {name}.{kind.lower().rstrip('6')}\n" for unit, kind in kinds)
        (tmp_path / f"{name}.nam").write_text("".join(lines))
    well_file(tmp_path, "1 1 2 -4")
    it = weathered(Asked(tmp_path / "low.nam", tmp_path / "plan.wel", tmp_path / "high.nam"), tmp_path / "first")
    uppers = [int(listing.steps[n].high[0]) for listing in it.heads for n in (0, 3)]
    lowers = [int(listing.steps[n].low[0]) for listing in it.heads for n in (0, 3)]
    assert lowers[0] > 11 * 10**9 > uppers[1] and uppers[3] < 11 * 10**9, (lowers, uppers)
    assert it.listing.steps[-1].period == periods and [effect.step for effect in it.effects] == [1, 2, 3, 4]
    assert outside(tmp_path, 1)[0] == 0


def test_a_share_lies_above_the_foot_and_a_conductance_is_written_whole():
    heads = (10, 12), (9, 10), (8, 12), (12, 9), (10, 10)
    assert [share(10, each) for each in heads] == [1, 0, Fraction(1, 2), Fraction(2, 3), 1]
    assert [word_of(n) for n in (0, 3, 25 * 10**17, 10**30)] == ["0", "3E-18", "25E-1", "1E12"]


@pytest.fixture
def valley(example, tmp_path):
    """A river, two wells and recharge between two decks; a file of one more well."""
    nam = example("valley_between").with_name("from.nam")
    return nam, well_file(tmp_path, "1 8 17 -1500")


def planned(nam, name, kind, old, new):
    """A name file of the base deck in which one package's text is another one."""
    found = next(line.split() for line in nam.read_text().splitlines() if line.startswith(kind))
    text = (nam.parent / found[2]).read_text()
    assert old in text
    nam.with_name(f"{name}.{kind.lower()}").write_text(text.replace(old, new, 1))
    nam.with_name(f"{name}.nam").write_text(nam.read_text().replace(found[2], f"{name}.{kind.lower()}"))
    return nam.with_name(f"{name}.nam")


def test_a_name_file_with_the_wells_is_the_same_plan_as_a_file_of_them(valley, tmp_path):
    nam, wells = valley
    other = planned(nam, "more", "WEL", "2 0\n", "3 0\n1 8 17 -1500\n")
    asked = [Asked(nam, plan, nam.with_name("to.nam")) for plan in (wells, other)]
    made = [weathered(each, tmp_path / f"made_{each.plan.stem}") for each in asked]
    assert made[0].listing.sha256 == made[1].listing.sha256 and made[0].listing.end == "END"
    assert "file of WEL" in made[0].plan.said[0] and "name file" in made[1].plan.said[0]


def test_a_plan_that_pumps_less_raises_the_heads(valley, tmp_path):
    nam, _ = valley
    to = nam.with_name("to.nam")
    less = planned(to, "less", "WEL", "1 8 17 -1500", "1 8 17 -500")
    effect = weathered(Asked(to, less, nam), tmp_path / "made").effects[0]
    assert (effect.high < 0).all() and int(effect.low.min()) < -3 * 10**9


@pytest.mark.parametrize(
    "kind, old, new, said",
    [
        ("LPF", "CONSTANT", "CONSTANT 1", "may differ in stresses and STRT alone"),
        ("DIS", "CONSTANT 100", "CONSTANT 101", "may differ in stresses and STRT alone"),
    ],
)
def test_a_weather_with_another_aquifer_is_refused(valley, tmp_path, kind, old, new, said):
    nam, wells = valley
    if kind == "LPF":
        old = next(w for w in (nam.parent / "both.lpf").read_text().split("\n")[7].split())
        new = old + "1"
    other = planned(nam, "other", kind, old, new)
    with pytest.raises(Problem, match=f"differ in {kind}.*{said}"):
        weathered(Asked(nam, wells, other), tmp_path / "made")


CHANGES = [("RIV", "200", "100"), ("RIV", "11.9", "11.8"), ("RCH", "0.00048", "0.0005")]


@pytest.mark.parametrize("kind, old, new", CHANGES)
def test_a_plan_that_changes_more_than_wells_is_refused(valley, tmp_path, kind, old, new):
    nam, _ = valley
    with pytest.raises(Problem, match=f"differ in {kind}.*a plan may add wells, or take wells out, and change nothing"):
        weathered(Asked(nam, planned(nam, "other", kind, old, new)), tmp_path / "made")


@pytest.mark.parametrize(
    "text, said",
    [
        ("1 0\n1 0\n1 8 17\n", "has no well that from.nam hasn't"),
        ("1 0\n0 0\n", "no plan to look at"),
        ("1 0\n1 0\n1 8 17 -5\n1 0\n1 8 17 -6\n", "after the 1 period of from.nam"),
        ("1 0\n1 0\n1 8 99 -5\n", "outside the grid"),
        ("1 0\n", "more is due"),
    ],
)
def test_a_file_of_wells_that_is_no_plan_is_refused(valley, tmp_path, text, said):
    nam, wells = valley
    wells.write_text(text)
    with pytest.raises(Problem, match=said):
        weathered(Asked(nam, wells), tmp_path / "made")


def test_a_well_without_an_equation_is_told(example, tmp_path):
    nam = example("pumping_test")
    it = weathered(Asked(nam, well_file(tmp_path, "1 1 1 -5", "1 10 10 -5"), None, True), tmp_path / "made")
    assert any("1 row 1 column 1 stands in a cell without an equation" in line for line in it.plan.said)


def test_rivers_alone_have_no_bounds_in_any_weather(valley, tool, tmp_path):
    nam, wells = valley
    status, out, err = tool("drawdown", nam, wells, "--any", tmp_path / "out")
    assert status == 2 and "every river and drain is dry" in err and not (tmp_path / "out").exists(), out + err


def test_the_page_says_what_may_be_said_and_leaves_the_deck_as_it_is(valley, tool, tmp_path):
    nam, wells = valley
    before = {path: path.read_bytes() for path in nam.parent.iterdir()}
    words = "drawdown", nam, wells, "--to", "to.nam", tmp_path / "out", "--cell", "1,8,15", "--at", "pond,450,1000"
    for _ in range(2):
        status, out, err = tool(*words)
        assert status == 0 and "DRAWDOWN 1 8 17 5.378731366 5.378731629" in out, out + err
    assert "Not proved by machine: that the two difference decks" in out and "May not be said" in out
    assert "pond: at the end of" in out and "RIVER LEAKAGE" in out and "subtracted, which needs no step" in out
    assert before == {path: path.read_bytes() for path in nam.parent.iterdir()}
    rows = list(csv.DictReader((tmp_path / "out" / "drawdown.csv").open()))
    row = next(row for row in rows if (row["row"], row["col"]) == ("8", "17"))
    assert (row["drawdown_lower"], row["drawdown_upper"]) == ("5.378731366", "5.378731629")
    page = (tmp_path / "out" / "index.html").read_text()
    assert "greatest_layer1.png" in page and "least_layer1.png" in page and '<p class="verdict ">' in page
    assert '<img src="sources.png"' in page and (tmp_path / "out" / "sources.png").stat().st_size > 5000
    assert "heads check difference_low.nam difference.heads --to difference_high.nam" in page


def test_two_decks_of_one_weather_are_said_to_be_that(valley, tool, tmp_path):
    nam, wells = valley
    nam.with_name("same.nam").write_bytes(nam.read_bytes())
    status, out, err = tool("drawdown", nam, wells, "--to", "same.nam", tmp_path / "out")
    assert status == 0 and "In the weather of from.nam, which is that of same.nam: " in out, out + err
    assert "period 1 step 1, 1 d the plan" in out and "m³ per d:" in out


def test_results_of_others_and_the_decks_own_folder_are_kept(valley, tool, tmp_path):
    nam, wells = valley
    (tmp_path / "out").mkdir()
    (tmp_path / "out" / "index.html").write_text("mine")
    status, out, err = tool("drawdown", nam, wells, tmp_path / "out")
    assert status == 2 and (tmp_path / "out" / "index.html").read_text() == "mine", out + err
    assert tool("drawdown", nam, wells, nam.parent)[0] == 2
    status, _, err = tool("drawdown", nam, wells, tmp_path / "two", "--name", nam)
    assert status == 2 and "go with two listings" in err


def test_the_call_has_the_listing_of_the_differences(valley, tmp_path):
    import heads_tools

    nam, wells = valley
    answer = heads_tools.drawdown_whatever(nam, wells, tmp_path / "out", to="to.nam", cell=(1, 8, 15))
    assert answer.is_good and answer.listing.is_span and "DRAWDOWN 1 8 15 0.926786971 0.926787087" in str(answer)
    with pytest.raises(Problem, match="has no flow"):
        heads_tools.drawdown_whatever(nam, wells, tmp_path / "out2", cell=(1, 99, 15))
    assert not (tmp_path / "out2").exists()


def test_hk_within_ranges_bounds_the_drawdown_at_the_well_of_random_fields(example, tool, tmp_path):
    from heads_tools import read_listing
    from heads_tools.deck.ranges import scaled

    nam, made = example("three_aquifers"), tmp_path / "made"
    wells = well_file(tmp_path, "3 5 5 -100")
    status, out, err = tool("drawdown", nam, wells, "--any", "--hk", "0.8..1.2", made)
    said = re.search(r"DRAWDOWN 3 5 5 (\S+) (\S+) at the end of period 1 step 1", out)
    assert status == 0 and said and "falls as any conductance grows" in out, out + err
    low, high = (round(Fraction(word) * 10**9) for word in said.groups())
    middle = re.search(r"DRAWDOWN 3 5 5 (0.32\d+) (0.32\d+)\n", out)
    assert middle and low < 0.32 * 10**9 < high and high - low < 0.2 * 10**9
    draw = random.Random(7)
    for _ in range(5):
        deck = read_deck(made / "base.nam")[0]
        for layer in deck.properties:
            words = scaled(layer["HK"], "1").words
            layer["HK"].words = [f"{float(word) * draw.uniform(0.8, 1.2):.6f}" for word in words]
        (made / "field.lpf").write_text("\n".join(package_lines(deck, "LPF")) + "\n")
        (made / "field.nam").write_text((made / "difference_low.nam").read_text().replace("base.lpf", "field.lpf"))
        (made / "field.heads").write_text(heads(["run", "field.nam"], made).stdout)
        listing = read_listing(made / "field.heads")
        at = listing.at((3, 5, 5))
        assert low < listing.steps[0].low[at] and listing.steps[0].high[at] < high


@pytest.mark.parametrize(
    "name, entries, words, said",
    [
        ("three_aquifers", ["3 5 5 -100"], [], "--hk goes with --any"),
        ("three_aquifers", ["3 5 5 -100", "3 4 5 -1"], ["--any"], "has wells at 2 cells"),
        ("pumping_test", ["1 10 10 -50"], ["--any"], "has a transient period"),
    ],
)
def test_hk_within_ranges_is_refused_where_the_law_doesnt_hold(example, tool, tmp_path, name, entries, words, said):
    plan = well_file(tmp_path, *entries)
    status, out, err = tool("drawdown", example(name), plan, *words, "--hk", "0.8..1.2", tmp_path / "made")
    assert status == 2 and said in err and not (tmp_path / "made").exists(), out + err
