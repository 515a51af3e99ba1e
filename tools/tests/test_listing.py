"""Reading listings: exact numbers, arrays rounded outward, and sentences for what is no listing."""
from fractions import Fraction

import numpy as np
import pytest

from heads_tools import Problem, read_heads, read_listing, write_heads

TEXT = """HEADS 2 DIGITS 3 UNIT 2
STEP 1 1
HEAD 1 1 1 10.000000000 10.000000000
HEAD 1 1 2 -0.000000007 0.100000000
HEAD 2 1 2 7.138119734 7.138119992
IN 1.000000000000 2.000000000000 STORAGE
OUT 0.500000000000 2.500000000000 STORAGE
ZONE 1 2 -0.250000000000 0.000000000001
STEP 1 2
HEAD 1 1 1 10.000000000 10.000000000
HEAD 1 1 2 3999999999.999999999 4000000000.000000000
HEAD 2 1 2 1.000000001 1.000000002
IN 0.000000000000 0.000000000000 STORAGE
OUT 0.000000000000 0.000000000000 STORAGE
END
"""


@pytest.fixture
def listing(tmp_path):
    (tmp_path / "m.heads").write_text(TEXT)
    return read_listing(tmp_path / "m.heads")


def test_all_numbers_are_whole_numbers_of_the_last_digit(listing):
    assert (listing.digits, listing.unit, listing.end, listing.shape) == (3, 2, "END", (2, 1, 2))
    first = listing.steps[0]
    assert first.low.tolist() == [10 * 10**9, -7, 7138119734]
    assert first.terms == {"STORAGE": [10**12, 2 * 10**12, 5 * 10**11, 25 * 10**11]}
    assert first.zones == [(1, 2, -25 * 10**10, 1)]
    assert listing.widest()[0] == 100000007


def test_arrays_are_rounded_outward_by_less_than_a_unit(listing):
    lower, upper = listing.lower(), listing.upper()
    assert lower.shape == (2, 2, 1, 2) and np.isnan(lower[0, 1, 0, 0])
    for n, step in enumerate(listing.steps):
        for (k, i, j), low, high in zip(listing.cells - 1, step.low.tolist(), step.high.tolist()):
            assert 0 <= Fraction(low, 10**9) - Fraction(lower[n, k, i, j]) < Fraction(1, 10**6)
            assert 0 <= Fraction(upper[n, k, i, j]) - Fraction(high, 10**9) < Fraction(1, 10**6)
    assert lower[0, 0, 0, 0] == upper[0, 0, 0, 0] == 10.0


@pytest.mark.parametrize(
    "text, part",
    [
        ("", "is empty"),
        ("REFUSED 1 MissingFile a.dis 0\n", "no listing"),
        ("GRASS\n", "line 1"),
        (TEXT.replace("HEAD 1 1 2 -0.000000007 0.100000000", "HEAD 1 1 2 -0.000000007"), "line 4"),
        (
            TEXT.replace(
                "HEAD 1 1 1 10.000000000 10.000000000\nHEAD 1 1 2 3",
                "HEAD 1 2 1 10.000000000 10.000000000\nHEAD 1 1 2 3",
            ),
            "other cells",
        ),
    ],
)
def test_what_is_no_listing_gets_a_sentence(text, part, tmp_path):
    (tmp_path / "x").write_text(text)
    with pytest.raises(Problem, match=part):
        read_listing(tmp_path / "x")


def test_a_listing_that_was_cut_is_read_as_far_as_its_steps_are_whole(tmp_path):
    (tmp_path / "x").write_text(TEXT[: TEXT.index("HEAD 2 1 2 1.0")])
    listing = read_listing(tmp_path / "x")
    assert len(listing.steps) == 1 and not listing.is_whole


@pytest.mark.parametrize("side", ["lower", "upper", "middle"])
@pytest.mark.parametrize("is_single", [False, True])
def test_a_head_file_comes_back(listing, side, is_single, tmp_path):
    write_heads(tmp_path / "m.hds", listing, side, is_single=is_single)
    heads = read_heads(tmp_path / "m.hds")
    assert set(heads) == {(1, 1), (1, 2)}
    for n, grid in enumerate(heads.values()):
        grid = (
            np.where(grid == -999.99, np.nan, grid)
            if not is_single
            else np.where(np.abs(grid + 999.99) < 1e-3, np.nan, grid)
        )
        known = ~np.isnan(listing.lower()[n])
        assert (known == ~np.isnan(grid)).all()
        if side != "upper":
            assert side == "middle" or (grid[known] <= listing.lower()[n][known]).all()
        if side == "upper":
            assert (grid[known] >= listing.upper()[n][known]).all()


def test_record_marks_and_tables_are_read(listing, tmp_path):
    write_heads(tmp_path / "m.hds", listing)
    raw, out, at = (tmp_path / "m.hds").read_bytes(), b"", 0
    while at < len(raw):
        for size in (52, 2 * 8):
            out += size.to_bytes(4, "little") + raw[at : at + size] + size.to_bytes(4, "little")
            at += size
    (tmp_path / "marked.hds").write_bytes(out)
    plain, marked = read_heads(tmp_path / "m.hds"), read_heads(tmp_path / "marked.hds")
    assert all(np.array_equal(plain[k], marked[k], equal_nan=True) for k in plain) and set(plain) == set(marked)
    (tmp_path / "m.csv").write_text("layer,row,col,head\n1,1,2,5.5\n")
    assert read_heads(tmp_path / "m.csv")[0, 0][0, 0, 1] == 5.5
    (tmp_path / "bad.csv").write_text("layer,row,col,head\n1,1,two,5.5\n")
    with pytest.raises(Problem, match="line 2"):
        read_heads(tmp_path / "bad.csv")
    (tmp_path / "cut.hds").write_bytes(raw[:-3])
    with pytest.raises(Problem, match="ends within"):
        read_heads(tmp_path / "cut.hds")
