"""recheck_convertible on listings of another writer: it holds them, and names what was spoilt."""
import re
import subprocess
import sys
from decimal import Decimal

import pytest
from conftest import TOOLS
from test_recheck import moved
from water_listings import Pairs, drawn, is_gentle, narrowed, spoilt, zone_file, zones_of
from water_reference import Small, pumped, tank

SCRIPT = TOOLS / "recheck_convertible.py"
D = Decimal


def said(model, folder, text, *zones, script=SCRIPT):
    """Status and words about a listing of a model."""
    nam = model.write(folder)
    (folder / "a.heads").write_text(text)
    words = [sys.executable, script, nam.name, "a.heads", *zones]
    done = subprocess.run(words, cwd=folder, capture_output=True, text=True)
    assert "Traceback" not in done.stderr, done.stderr
    return done.returncode, done.stdout.strip()


def test_it_stays_short_and_stands_on_recheck_alone():
    text = SCRIPT.read_text()
    imported = set(re.findall(r"^(?:import|from) (\w+)", text, re.M))
    assert text.count("\n") <= 300 and max(map(len, text.split("\n"))) <= 120
    assert imported == {"copy", "fractions", "itertools", "recheck", "sys", "typing"}


@pytest.mark.parametrize("seed", range(12))
def test_random_listings_hold_where_all_heads_between_are_gentle_and_spoilt_ones_do_not(seed, tmp_path):
    pairs = Pairs(drawn(seed), 12)
    status, words = said(pairs.model, tmp_path, pairs.text())
    if not is_gentle(pairs):
        assert status == 1 and "GENTLE" in words
        return
    assert (status, words) == (0, "HOLDS")
    text, kind = spoilt(pairs.text(), seed)
    status, words = said(pairs.model, tmp_path, text)
    assert status == 1 and words.startswith("NOT CONFIRMED: "), kind


def listing_of(head, width=D("0.00000002")):
    """A listing of the pumped cell: pairs round `head`, and flows as wide as may be."""
    low, high = head - width, head + width
    terms = "".join(
        f"{side} {0:.21f} {10**6:.21f} {name}\n"
        for side in ("IN", "OUT")
        for name in ("STORAGE", "CONSTANT HEAD", "WELLS", "DRAINS", "RIVER LEAKAGE", "HEAD DEP BOUNDS", "RECHARGE")
    )
    heads = "HEAD 1 1 1 10.000000000 10.000000000\nHEAD 1 1 2 {:.9f} {:.9f}\nHEAD 1 1 3 10.000000000 10.000000000\n"
    return f"HEADS 2 DIGITS 12 UNIT 2 CONVERTIBLE\nSTEP 1 1\n{heads.format(low, high)}{terms}END\n"


def test_of_the_pumped_cell_s_two_solutions_one_holds_and_the_other_is_steep(tmp_path):
    model = pumped("-600")
    assert said(model, tmp_path, listing_of(D(6))) == (0, "HOLDS")
    status, words = said(model, tmp_path, listing_of(D("2.5")))
    assert status == 1 and words.startswith("NOT CONFIRMED: period 1 step 1 1 1 2 GENTLE: ")


def test_a_balance_of_just_one_unit_is_a_sign_and_less_is_none(tmp_path):
    # Between 10 m and 8 m of saturated thickness the branch has 88.888.. m2/d, so at 8 m both bring 355.555.. m3/d.
    model = pumped("-355.555555555")
    text = listing_of(D(8), D(0))
    status, words = said(model, tmp_path, text)
    assert status == 1 and " 1 1 2 HIGH: " in words  # at 8 m the balance is 5.6E-10, far above one unit
    model = pumped("-355.555555556")
    status, words = said(model, tmp_path, text)
    assert status == 1 and " 1 1 2 LOW: " in words


def test_the_mixed_corner_counts_for_gentle(tmp_path):
    # From 10 m the head falls by 5 m to 5 m: gentle at the exact head, and steep for each pair round it.
    model = pumped("-750")
    status, words = said(model, tmp_path, listing_of(D(5)))
    assert status == 1 and " 1 1 2 GENTLE: " in words


def test_a_head_that_crosses_its_top_gives_from_both_sides(tmp_path):
    for rates in (["-900"], ["-900", "900"]):
        pairs = Pairs(tank(rates), 12)
        assert said(pairs.model, tmp_path, pairs.text()) == (0, "HOLDS")
        drained = pairs.text().split("\n")
        at = next(n for n, line in enumerate(drained) if line.startswith("IN ") and line.endswith("STORAGE"))
        drained[at] = "IN 0.000000000000000000000 100.000000000000000000000 STORAGE"
        status, words = said(pairs.model, tmp_path, "\n".join(drained))
        assert status == 1 and words.endswith("IN STORAGE: the pair doesn't hold the flows")


def test_flows_between_zones_have_any_conductance_and_any_fall_between(tmp_path):
    model = pumped("-600")
    (tmp_path / "zones.txt").write_text("INTERNAL 1 (FREE)\n1 2 2\n")
    # From 10 m to 6 m: 2 * 10 / (1/10 + 1/6) is 75 m2/d, times a fall of 4 m.
    low, high = D(6) - D("0.00000002"), D(6) + D("0.00000002")
    conductance = lambda x: 20 / (1 / D(10) + 1 / x)
    least, most = conductance(low) * (10 - high), conductance(high) * (10 - low)
    text = listing_of(D(6))
    for more, status in ((D("1E-12"), 0), (D("-1E-12"), 1)):
        line = f"ZONE 1 2 {least - more:.21f} {most + more:.21f}\nEND\n"
        found = said(model, tmp_path, text.replace("END\n", line), "zones.txt")
        assert found[0] == status, found


def test_a_vertical_conductance_is_least_at_the_upper_heads(tmp_path):
    model = Small((2, 1, 1), [D(20), D(10)], [D(10), D(0)], [D(1)] * 2, [-1, 1], [D(16), D(15)], [1, 0])
    (tmp_path / "zones.txt").write_text("INTERNAL 1 (FREE)\n1\nINTERNAL 1 (FREE)\n2\n")
    model.wells = [(1, [D(-300)])]
    pairs = Pairs(model, 12)
    # Half of 6 m and half of 10 m over VK 0.5: 10000 / (6 + 10) is 625 m2/d, and 300 m3/d fall by 0.48 m.
    low, high = pairs.steps[0][2][1], pairs.steps[0][3][1]
    for more, status in ((D("1E-12"), 0), (D("-1E-12"), 1)):
        line = f"ZONE 1 2 {625 * (16 - high) - more:.21f} {625 * (16 - low) + more:.21f}\nEND\n"
        found = said(model, tmp_path, pairs.text().replace("END\n", line), "zones.txt")
        assert found[0] == status, found


@pytest.mark.parametrize("seed", range(0, 12, 2))
def test_random_flows_between_zones_hold_and_narrow_ones_do_not(seed, tmp_path):
    pairs = Pairs(drawn(seed), 12)
    if not is_gentle(pairs):
        return
    zones = zones_of(pairs.model, seed)
    (tmp_path / "zones.txt").write_text(zone_file(pairs.model, zones))
    text = pairs.text(zones=zones)
    assert said(pairs.model, tmp_path, text, "zones.txt") == (0, "HOLDS")
    if "ZONE" in text:
        status, words = said(pairs.model, tmp_path, narrowed(text, seed), "zones.txt")
        assert status == 1 and " ZONE " in words


def test_the_first_line_has_the_word_and_recheck_py_refuses_the_deck(tmp_path):
    model = pumped("-600")
    status, words = said(model, tmp_path, listing_of(D(6)).replace(" CONVERTIBLE", ""))
    assert status == 1 and "line 1 of the listing" in words
    status, words = said(model, tmp_path, listing_of(D(6)), script=TOOLS / "recheck.py")
    assert status == 2 and "recheck_convertible.py" in words


@pytest.mark.parametrize("options, laytyp, status", [
    ("THICKSTRT", "-1", 2),
    ("thickstrt", "1", 0),
    ("", "-1", 0),
    ("ConstantCV", "1", 2),
    ("NOCVCORRECTION", "1", 2),
    ("STORAGECOEFFICIENT NOVFC", "1", 2),
])  # fmt: skip
def test_options_that_change_what_is_read(options, laytyp, status, tmp_path):
    model = pumped("-600")
    nam = model.write(tmp_path)
    lpf = (tmp_path / "m.lpf").read_text().split("\n")
    lpf[0], lpf[1] = f"{lpf[0]} {options}", laytyp
    (tmp_path / "m.lpf").write_text("\n".join(lpf))
    (tmp_path / "a.heads").write_text(listing_of(D(6)))
    done = subprocess.run([sys.executable, SCRIPT, nam.name, "a.heads"], cwd=tmp_path, capture_output=True, text=True)
    assert done.returncode == status, done.stdout


def test_a_layer_whose_laytyp_is_0_stays_full_at_any_head(tmp_path):
    model = pumped("-600")
    model.convertible = [0]
    pairs = Pairs(model, 12)
    assert said(model, tmp_path, pairs.text()) == (0, "HOLDS")
    moved_text = pairs.text().split("\n")
    at = next(n for n, line in enumerate(moved_text) if line.startswith("HEAD 1 1 2"))
    moved_text[at] = moved(moved_text[at], 10**9, 10**9)
    assert said(model, tmp_path, "\n".join(moved_text))[0] == 1
