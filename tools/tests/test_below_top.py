"""Cells whose heads lie below their own tops: which they are, exactly, and where people are told of them."""
import re

import numpy as np
import pytest
from conftest import TOP, heads

from heads_tools.listing.below_top import ALL_FULL, BelowTop, below_top
from heads_tools.listing.listing import read_listing
from heads_tools.deck.packages import read_deck

UNITS = 10**9
TWO_LAYERS = {
    "m.nam": "DIS 11 m.dis\nBAS6 12 m.bas\nLPF 13 m.lpf\n",
    "m.dis": "2 1 3 1 4 2\n1 0\nCONSTANT 10\nCONSTANT 10\n{top}\nCONSTANT 4\nCONSTANT 2.5\nCONSTANT -3\n1 1 1 SS\n",
    "m.bas": "FREE\nINTERNAL 1 (FREE) -1\n-1 1 1\nCONSTANT 1\n-999.99\nCONSTANT {head}\nCONSTANT {head}\n",
    "m.lpf": "0 -1E+30 0\n0 0\n0 0\n1 1\n0 0\n0 0\n" + "CONSTANT 1\nCONSTANT 1\nCONSTANT 0.1\n" + "CONSTANT 1\n" * 2,
}


def deck(folder, top="CONSTANT 10", head="7"):
    for name, text in TWO_LAYERS.items():
        (folder / name).write_text(text.format(top=top, head=head))
    return folder / "m.nam"


def listing(folder, *steps, to=""):
    """A listing of pairs of heads in 10^-9 of six cells in two layers, step after step."""
    text = lambda n: f"{'-' * (n < 0)}{abs(n) // UNITS}.{abs(n) % UNITS:09d}"
    lines = [f"HEADS 2 DIGITS 0 UNIT 2{to}"]
    for step, pairs in enumerate(steps, 1):
        cells = [(k, 1, j) for k in (1, 2) for j in (1, 2, 3)]
        lines.append(f"STEP 1 {step}")
        lines += ["HEAD {} {} {}".format(*cell) + f" {text(a)} {text(b)}" for cell, (a, b) in zip(cells, pairs)]
    (folder / "m.heads").write_text("\n".join([*lines, "END", ""]))
    return read_listing(folder / "m.heads")


def alike(*heads):
    return [(head, head) for head in heads]


@pytest.mark.parametrize(
    "top, units, is_below",
    [
        ("CONSTANT 1.5", 1_500_000_000, False),
        ("CONSTANT 1.5", 1_499_999_999, True),
        ("CONSTANT 1.0000000005", 1_000_000_000, True),
        ("CONSTANT 1.0000000005", 1_000_000_001, False),
        ("CONSTANT 15D-1", 1_499_999_999, True),
        ("CONSTANT -0.3", -300_000_000, False),
        ("CONSTANT -0.3", -300_000_001, True),
        ("INTERNAL 0.1 (FREE) -1\n3 3 3", 300_000_000, False),
        ("INTERNAL 0.1 (FREE) -1\n3 3 3", 299_999_999, True),
    ],
)
def test_a_head_is_compared_with_its_top_exactly(top, units, is_below, tmp_path):
    nam = deck(tmp_path, top=top)
    high = 10 * UNITS
    tops = below_top(nam, listing(tmp_path, alike(units, units, units, high, high, high)))
    assert tops.is_below(tops.listing.steps[0]).tolist() == [is_below] * 3 + [False] * 3


def test_a_layer_below_a_bed_begins_at_the_beds_bottom(tmp_path):
    tops = below_top(deck(tmp_path), listing(tmp_path, alike(*[10 * UNITS] * 3, 2_500_000_000, 2_499_999_999, 0)))
    assert tops.below.tolist() == [0, 0, 0, 0, 1, 1]


def test_cells_are_counted_by_layer_and_those_that_may_be_below_apart(tmp_path):
    pairs = [(9 * UNITS, 10 * UNITS), (9 * UNITS, 9 * UNITS), (3 * UNITS, 3 * UNITS), *alike(*[3 * UNITS] * 3)]
    said = below_top(deck(tmp_path), listing(tmp_path, pairs)).sentences()
    assert said[0] == (
        "In 2 of 3 cells of layer 1 every exact head lies below the cell's top: there the aquifer isn't confined, and "
        "the model takes it as full."
    )
    assert said[1].startswith("In 1 of them it lies below the cell's bottom, too") and "dry" in said[1]
    assert said[2].startswith("In 1 more of 3 cells of layer 1 the lower head alone lies below the cell's top")
    assert "a thinner aquifer draws down more" in said[3] and "isn't on the safe side" in said[3] and len(said) == 4


def test_the_steps_are_counted_with_the_worst_and_the_last(tmp_path):
    full, half = [10 * UNITS] * 3, [9 * UNITS, 9 * UNITS, 10 * UNITS]
    steps = [alike(*first, *[3 * UNITS] * 3) for first in (full, half, [10 * UNITS, 10 * UNITS, 9 * UNITS], full)]
    said = below_top(deck(tmp_path), listing(tmp_path, *steps)).sentences()
    assert said[0].startswith("In 3 of 3 cells of layer 1") and "at the end of some step" in said[0]
    assert said[1] == (
        "Layer 1 has such cells at the end of 2 of 4 steps: most, 2, at the end of period 1 step 2, and 0 at the end "
        "of the last one, period 1 step 4."
    )


def test_of_two_decks_it_holds_for_every_deck_between_them(tmp_path):
    said = below_top(deck(tmp_path), listing(tmp_path, [(3 * UNITS, 9 * UNITS)] * 6, to=" TO")).sentences()
    assert "every exact head of every deck between the two lies below the cell's top" in said[0]


def test_of_a_listing_that_is_not_certified_the_upper_heads_alone_are_said(tmp_path):
    tops = below_top(deck(tmp_path), listing(tmp_path, alike(*[9 * UNITS] * 6)))
    said = tops.sentences(is_certified=False)[0]
    assert "the upper head lies below" in said and "exact" not in said


@pytest.mark.program
def test_no_example_contradicts_itself(tmp_path):
    seen = 0
    for nam in sorted((TOP / "examples").rglob("*.nam")):
        for digits in ("12", "9"):
            text = heads(["run", nam.name, "--digits", digits], nam.parent).stdout
            if "\nSTEP " in text:
                (tmp_path / "m.heads").write_text(text)
                tops = below_top(nam, read_listing(tmp_path / "m.heads"))
                assert tops.sentences() == [], nam
                seen += 1
                break
    assert seen >= 20


@pytest.fixture
def drained(example):
    """The valley with the tops of its cells above all of its heads, the thicknesses as they were."""
    nam = example("river_valley")
    dis = nam.with_name("m.dis")
    dis.write_text(dis.read_text().replace("CONSTANT 5\nCONSTANT -15", "CONSTANT 20\nCONSTANT 0"))
    return nam


ALL = "In 600 of 600 cells of layer 1 every exact head lies below the cell's top"


@pytest.mark.program
def test_a_run_says_it_once_beside_its_progress(drained, example, tool, tmp_path):
    status, out, err = tool("run", drained)
    assert status == 0 and err.count(ALL) == 1 and ALL not in out
    assert "exact head" not in drained.with_suffix(".heads").read_text()
    status, out, err = tool("run", example("tide"))
    assert status == 0 and "below the cell's top" not in err


@pytest.mark.program
def test_the_page_of_a_listing_says_it_and_maps_the_cells(drained, tool, tmp_path):
    tool("run", drained)
    status, out, err = tool("look", drained.with_suffix(".heads"), tmp_path / "look", "--name", drained)
    text = (tmp_path / "look" / "index.html").read_text()
    assert status == 0 and ALL in out and ALL.replace("'", "&#39;") in text
    assert "below_top_layer1.png" in text and (tmp_path / "look" / "below_top_layer1.png").is_file()
    assert ALL_FULL not in text


@pytest.mark.program
def test_a_page_says_that_all_is_full_or_that_the_tops_are_not_known(example, tool, tmp_path):
    nam = example("river_valley")
    tool("run", nam)
    for words, said in ((("--name", nam), ALL_FULL), ((), "not known, since no model was named")):
        status, out, err = tool("look", nam.with_suffix(".heads"), tmp_path / "look", *words)
        text = (tmp_path / "look" / "index.html").read_text()
        assert status == 0 and said in text and "below_top_layer" not in text


@pytest.mark.program
def test_a_page_of_one_row_marks_the_cells(example, tool, tmp_path):
    nam = example("tide")
    dis = nam.with_name("m.dis")
    dis.write_text(dis.read_text().replace("CONSTANT -5\nCONSTANT -25", "CONSTANT 0\nCONSTANT -20"))
    tool("run", nam)
    status, out, err = tool("look", nam.with_suffix(".heads"), tmp_path / "look", "--name", nam)
    assert status == 0 and "In 26 of 60 cells of layer 1" in out and "at the end of 24 of 48 steps" in out


@pytest.mark.program
def test_inside_says_it_of_given_heads_and_of_a_certified_listing(drained, example, tool):
    unknown = "is said by `heads-tools run` and `heads-tools look --name`"
    status, out, err = tool("inside", drained)
    assert status == 0 and unknown in out
    tool("run", drained)
    assert f"tops: m.heads, certified: {ALL}" in tool("inside", drained)[1]
    other = drained.with_name("m.wel")
    other.write_text(other.read_text().replace("-1500", "-900"))
    status, out, err = tool("inside", drained)
    assert "m.heads isn't certified as a listing of this model" in out and ALL not in out
    nam = example("tide")
    chd = nam.with_name("m.chd")
    chd.write_text(re.sub(r"(?m)^1 1 1 \S+", "1 1 1 -7", chd.read_text(), count=1))
    assert "in 1 of 1 cell with a given head (IBOUND below 0, CHD) that head lies below" in tool("inside", nam)[1]


@pytest.mark.program
def test_an_exhibit_says_whether_the_layers_are_full(drained, example, tool, tmp_path):
    assert tool("exhibit", drained, tmp_path / "below")[0] == 0
    assert tool("exhibit", example("three_cells"), tmp_path / "full")[0] == 0
    for file in ("judge.html", "EXHIBIT.txt"):
        text = (tmp_path / "below" / file).read_text().replace("&#39;", "'")
        assert text.index("What may not be said") < text.index("Whether the layers are full") < text.index(ALL)
        assert "No plan draws the aquifer down by more" in text
        text = (tmp_path / "full" / file).read_text()
        assert ALL_FULL in text and "No plan draws" not in text
    assert 'src="look/below_top_layer1.png"' in (tmp_path / "below" / "judge.html").read_text()


@pytest.mark.program
def test_pages_of_changes_say_it_of_both_listings(example, tool, tmp_path):
    nam = example("pumping_plans")
    dis = nam.with_name("m.dis")
    dis.write_text(dis.read_text().replace("CONSTANT 5\nCONSTANT -15", "CONSTANT 20\nCONSTANT 0"))
    plan, base = nam.with_name("two_wells"), nam.with_name("no_well")
    assert tool("batch", nam.with_name("plans.list"))[0] == 0
    words = [each.with_suffix(".heads") for each in (plan, base)] + [tmp_path / "fall"]
    words += ["--name", plan.with_suffix(".nam"), "--base-name", base.with_suffix(".nam")]
    out = tool("drawdown", *words)[1]
    for name in ("two_wells", "no_well"):
        assert f"{name}.heads: In 200 of 200 cells of layer 1 every exact head lies below" in out
    assert out.count("draws down more") == 1
    tool("plans", nam.with_name("plans.list"), tmp_path / "page")
    text = (tmp_path / "page" / "index.html").read_text()
    assert "no_well.heads: In 200 of 200 cells of layer 1" in text and text.count("draws down more") == 1
    assert "In 2 of 2 plans heads lie below the tops of their cells: one_well.nam, two_wells.nam." in text
    assert text.count("<td>200</td><td>CERTIFIED</td>") == 2


def test_a_listing_of_a_larger_grid_is_refused(tmp_path):
    nam = deck(tmp_path)
    other = listing(tmp_path, alike(*[9 * UNITS] * 6))
    other.cells = other.cells + np.array([1, 0, 0])
    with pytest.raises(Exception, match="the model's grid is"):
        BelowTop(read_deck(nam)[0], other)


def test_tops_are_read_where_the_words_are_repeated(tmp_path):
    nam = deck(tmp_path, top="INTERNAL 1 (FREE) -1\n2*10 9")
    tops = below_top(nam, listing(tmp_path, alike(*[9_500_000_000] * 3, *[9 * UNITS] * 3)))
    assert tops.below.tolist() == [1, 1, 0, 0, 0, 0] and re.match("In 2 of 3", tops.sentences()[0])
