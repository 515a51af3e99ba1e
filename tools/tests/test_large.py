"""What is done in bulk for models of many cells gives what is done cell by cell, or word by word."""
import io
import random
from decimal import Decimal

import numpy as np
import pytest

from heads_tools import read_listing
from heads_tools.listing import cell_lines
from heads_tools.deck import sources
from heads_tools.listing.cell_lines import write_cells
from heads_tools.pages.pictures import plan_of
from heads_tools.deck.sources import Report, Source
from heads_tools.common.spelling import number
from heads_tools.common.text import Problem, decimal_text

FAR = 4 * 10**18
HEADS = [0, 1, -1, 10**9, -(10**9), 999_999_999, -1_000_000_001, FAR, -FAR, 2 * FAR, -2 * FAR]


def test_lines_of_cells_have_each_head_with_all_its_decimals(monkeypatch):
    monkeypatch.setattr(cell_lines, "LINES_AT_ONCE", 4)
    cells, low = np.array([(k, 2 * k, 3 * k) for k in range(1, 12)]), np.array(HEADS)
    out, high = io.StringIO(), np.flip(low)
    write_cells(out, "1%,", ",", cells, low, high)
    assert out.getvalue() == "".join(
        f"1%,{k},{2 * k},{3 * k},{decimal_text(low[k - 1], 9)},{decimal_text(high[k - 1], 9)}\n" for k in range(1, 12)
    )


def test_without_cells_there_is_no_line():
    out = io.StringIO()
    write_cells(out, "HEAD ", " ", np.zeros((0, 3), int), np.zeros(0, int), np.zeros(0, int))
    assert out.getvalue() == ""


def test_a_short_number_is_its_own_text_with_as_many_digits_as_its_decimal():
    draw = random.Random(7)
    for _ in range(3000):
        whole, part = ("".join(draw.choices("0012345", k=draw.randint(n, 9))) for n in (1, 0))
        end = draw.choice(["", "E5", "d-29", "e+29", "D07"])
        word = draw.choice(["", "-", "+"]) + whole + draw.choice(["", "." + part]) + end
        value = Decimal(word.upper().replace("D", "E")).normalize()
        assert number(word) == (word, "", len(value.as_tuple().digits) if value else 1)


@pytest.mark.parametrize("word", ["100000000000E30", "1E41", "0.0000000001E-31"])
def test_an_exponent_out_of_the_limits_is_refused_where_zeros_add_to_it(word):
    with pytest.raises(Problem, match="exponent"):
        number(word)


def read_free(tmp_path, lines, counts):
    """The free lists of a file, and the report on them."""
    (tmp_path / "m.lpf").write_text("\n".join(lines) + "\n")
    source = Source(tmp_path / "m.lpf", "m.lpf", Report())
    return [source.free_values(count) for count in counts], source.report


LINES = ["1 2 2.5 1.0+2", "2 1 2.5 1 2 1", "1, 2 2.5", "12.345678 1 1", "1 12.345678", "2*1 2"]


@pytest.mark.parametrize("most", [0, 2, 100_000])
def test_lines_of_known_words_are_read_as_word_by_word(most, tmp_path, monkeypatch):
    monkeypatch.setattr(sources, "MOST_KNOWN", most)
    found, report = read_free(tmp_path, LINES, [4, 5, 3, 5, 3])
    assert found == [
        ["1", "2", "2.5", "1.0E+2"],
        ["2", "1", "2.5", "1", "2"],
        ["1", "2", "2.5"],
        ["12.345678", "1", "1", "1", "12.345678"],
        ["1", "1", "2"],
    ]
    assert report.precise == 2 and report.first_precise == "m.lpf, line 4: 12.345678"
    assert [remark.line for remark in report.needed] == [1]


def test_a_value_left_out_is_told_where_all_words_are_known(tmp_path):
    assert [remark.line for remark in read_free(tmp_path, ["1 2", "1,,2"], [2, 2])[1].blocking] == [2]


def test_a_cell_of_a_listing_is_found_by_layer_row_and_column(tmp_path):
    cells = [(1, 1, 2), (1, 3, 1), (2, 1, 1)]
    heads = "".join(f"HEAD {k} {i} {j} 1.000000000 1.000000000\n" for k, i, j in cells)
    (tmp_path / "m.heads").write_text(f"HEADS 2 DIGITS 3 UNIT 2\nSTEP 1 1\n{heads}END\n")
    listing = read_listing(tmp_path / "m.heads")
    assert [listing.at(cell) for cell in cells] == [0, 1, 2]
    for cell in [(1, 1, 1), (0, 1, 2), (1, 0, 2), (2, 3, 1), (1, 3, 3), (3, 1, 1)]:
        assert not listing.has(cell)
        with pytest.raises(Problem, match="isn't in the listing"):
            listing.at(cell)


def test_marks_of_a_layer_are_those_of_its_cells_once_each_unless_they_hide_the_map():
    entries = {"RIV": np.array([(1, 3, 2), (2, 1, 1), (1, 1, 3), (1, 3, 2)])}
    plan = plan_of(np.ones(4), np.ones(3), "m", "m", entries=entries)
    rows, cols = plan.spots("RIV", 1)
    assert (rows.tolist(), cols.tolist()) == ([1, 3], [3, 2])
    assert [len(plan.spots(kind, layer)[0]) for kind, layer in (("RIV", 3), ("DRN", 1))] == [0, 0]
    assert len(plan_of(np.ones(5), np.ones(1), "m", "m", entries=entries).spots("RIV", 1)[0]) == 0
