"""Which share of a well's water each term and reach gives, for a well at each of some cells."""
import csv
from fractions import Fraction

import pytest
from conftest import heads
from test_weather import valleys

import heads_tools
from heads_tools.listing.plan_listing import read_plan_listing
from heads_tools.planning.capture import share

pytestmark = [pytest.mark.program, pytest.mark.plans]
# The rate of a well at 1 8 17, how much higher the river's bottoms are; what rows 1 to 10 of the river give at least
# and at most in every weather, by sums and by balance, as another program found.
REACHES = [(1500, "0", 1061.530, 1061.530), (2500, "0.8", 1433, 1906), (2500, "1", 375, 2246)]


def rows(path):
    with path.open() as file:
        return list(csv.DictReader(file))


@pytest.fixture
def upper(example, tmp_path):
    """The valley's folder, and a zone file: rows 1 to 10 are reach 1, the others reach 2."""
    nam = example("valley_between").with_name("from.nam")
    lines = ["INTERNAL 1 (FREE) -1", *([" ".join(["1"] * 30)] * 10), *([" ".join(["2"] * 30)] * 10)]
    (tmp_path / "reaches.zon").write_text("\n".join(lines) + "\n")
    return nam, tmp_path / "reaches.zon"


@pytest.mark.parametrize("rate, higher, least, most", REACHES)
def test_what_a_reach_gives_is_what_another_program_found(upper, tool, tmp_path, rate, higher, least, most):
    nam, zones = upper
    low, high = valleys(nam, higher)
    words = "capture", low, tmp_path / "out", "--to", high, "--rate", str(rate), "--cell", "1,8,17"
    status, out, err = tool(*words, "--reaches", zones)
    found = {row["term"]: row for row in rows(tmp_path / "out" / "capture.csv")}
    assert status == 0 and "isn't proved" in out, out + err
    assert (found["RIVER LEAKAGE"]["share_lower"], found["RIVER LEAKAGE"]["share_upper"]) == ("1.000000000",) * 2
    first = found["RIVER LEAKAGE, reach 1"]
    ends = [float(first[f"share_{side}"]) * rate for side in ("lower", "upper")]
    assert abs(ends[0] - least) < 0.6 and abs(ends[1] - most) < 0.6, ends


def test_the_shares_are_the_listed_sources_over_the_rate(example, tool, tmp_path):
    nam = example("drained_field")
    status, out, err = tool("capture", nam, tmp_path / "out", "--rate", "2", "--cell", "1,11,8", "--cell", "1,3,3")
    assert status == 0, out + err
    nam.with_name("plan.wel").write_text("1\n1 0\n1 11 8 -2\n")
    (tmp_path / "l.heads").write_text(heads(["run", "m.nam", "--plan", "plan.wel"], nam.parent).stdout)
    listed = read_plan_listing(tmp_path / "l.heads").sources[0]
    found = {row["term"]: row for row in rows(tmp_path / "out" / "capture.csv") if row["row"] == "11"}
    assert set(found) == {name for name, pair in listed.items() if any(pair)} == {"DRAINS", "ET"}
    for name, row in found.items():
        ends = [Fraction(row[f"share_{side}"]) * 2 * 10**21 for side in ("lower", "upper")]
        assert ends[0] <= listed[name][0] < ends[0] + 4 * 10**12 and ends[1] - 4 * 10**12 < listed[name][1] <= ends[1]
    page = (tmp_path / "out" / "index.html").read_text()
    assert "least_1_layer1.png" in page and "greatest_2_layer1.png" in page
    assert not (tmp_path / "out" / "drawdown.heads").exists() and len(rows(tmp_path / "out" / "wells.csv")) == 2


@pytest.mark.parametrize(
    "words, said",
    [
        (["--rate", "-5"], "above 0"),
        (["--rate", "5", "--cell", "1,1,1"], "given head"),
        (["--rate", "5", "--cell", "9,1,1"], "outside the grid"),
        (["--rate", "5", "--layer", "4"], "no layer 4"),
        (["--rate", "5", "--every", "0"], "a whole number from 1 to"),
    ],
)
def test_wells_that_take_nothing_and_wrong_words_are_refused(words, said, example, tool, tmp_path):
    nam = example("three_cells")
    status, out, err = tool("capture", nam, tmp_path / "out", *words)
    assert status == 2 and said in err and not (tmp_path / "out").exists(), out + err


def test_a_share_is_rounded_outward():
    assert share((1, 2), (3, 3)) == (333333333, 666666667)
    assert share((-2, -1), (3, 3)) == (-666666667, -333333333)


def test_the_command_is_a_call(example, tmp_path):
    nam = example("drained_field")
    answer = heads_tools.capture(nam, tmp_path / "out", rate=2, cell=(1, 11, 8))
    assert answer.is_good and (tmp_path / "out" / "capture.csv").is_file()
