"""Numbers: their spellings, and rounding to the safe side."""
import random
from decimal import Decimal
from fractions import Fraction

import pytest

from heads_tools.common.formats import format_of
from heads_tools.common.spelling import exact, number, product
from heads_tools.deck.sources import Report, Source
from heads_tools.listing.tables import budget_of
from heads_tools.listing.listing import Step
from heads_tools.common.text import Problem, decimal_text, down, short_down, short_up, signed_down, signed_up, up


@pytest.mark.parametrize(
    "word, value",
    [
        ("1", 1),
        ("-.5", Decimal("-0.5")),
        ("1.D2", 100),
        ("1.0+02", 100),
        ("2.5-3", Decimal("0.0025")),
        ("1e-20", Decimal("1e-20")),
    ],
)
def test_spellings_of_numbers(word, value):
    assert exact(word) == value


@pytest.mark.parametrize("word", ["nan", "1e", "--1", "1.2.3", "", "1e50", "0x10"])
def test_what_is_no_number(word):
    with pytest.raises(Problem):
        number(word)


def test_past_18_digits_a_number_is_rounded_and_said():
    seen = number("0.12345678901234567891")
    assert "rounded" in seen.change and exact(seen.text) == Decimal("0.123456789012345679")
    assert number("4.0000000000000000000000").change == "" and number("1234567").digits == 7


def test_products_are_exact():
    assert Decimal(product("0.1", "3e5").text) == 30000


@pytest.mark.parametrize(
    "text, lines, values",
    [
        ("(3F4.1)", [" 1.5  202.25"], ["1.5", "2", "2.25"]),
        ("(2I3)", [" -1  4"], ["-1", "4"]),
        ("(1P2E9.2)", [" 1.50E+01     2.5"], ["15", "0.25"]),
        ("(3F4.0)", ["  1"], ["1", "0", "0"]),
        ("(2F4.0,F6.0)", [" 1.5 2.5   3.5"], ["1.5", "2.5", "3.5"]),
        ("(5X,2F4.0)", ["row 1 1.5 2.5", "row 2 3.5"], ["1.5", "2.5", "3.5"]),
        ("(T3,F3.0,2X,F3.0)", ["xx1.5--2.5"], ["1.5", "2.5"]),
        ("(I2,2(1X,F3.0))", [" 7 1.5 2.5", " 3.5"], ["7", "1.5", "2.5", "3.5"]),
        ("(F3.0/F3.0)", ["1.5 rest", "2.5", "3.5", "4.5"], ["1.5", "2.5", "3.5", "4.5"]),
        ("(F3.0,1PF4.1)", ["1.5  25", " 35"], ["1.5", "0.25", "3.5"]),
    ],
)
def test_columns_of_fixed_width_are_read_as_fortran_does(text, lines, values, tmp_path):
    """With more numbers than fields the format begins again on a new line, with its last group; a scale stays."""
    (tmp_path / "a").write_text("\n".join(lines) + "\n")
    source = Source(tmp_path / "a", "a", Report())
    assert [Fraction(exact(word)) for word in source.fixed_values(len(values), text)] == [Fraction(v) for v in values]
    assert source.at == len(lines)


@pytest.mark.parametrize("text", ["(3A4)", "(2X)", "(F8.2", "F8.2", "(F8.2))", "('x',F8.2)", "(F3.0,(2X))"])
def test_formats_without_numbers_are_refused(text):
    with pytest.raises(Problem, match="isn't of numbers in columns"):
        format_of(text)


def test_rounded_outward():
    assert decimal_text(-7, 9) == "-0.000000007" and decimal_text(5, 0) == "5"
    assert (down(-1999999999, 9, 3), up(-1999999999, 9, 3)) == ("-2.000", "-1.999")
    for value in (1.2345, 9.999e-7, 123456.0, 3.3e-10, 0.0):
        assert float(short_down(value)) <= value <= float(short_up(value))
        assert float(signed_down(-value)) <= -value <= float(signed_up(-value))


def test_net_terms_are_narrowed_by_their_sum():
    step = Step(1, 1, None, None, {"WELLS": [0, 0, 100, 100], "RECHARGE": [150, 150, 0, 0], "DRAINS": [0, 0, 10, 90]})
    budget = budget_of(step)
    assert dict((n[0], n[3:]) for n in budget.nets)["DRAINS"] == (-50, -50)
    assert budget.rows[-1] == ("TOTAL", 150, 150, 110, 190)
    assert not budget.is_empty


def test_a_net_term_is_what_the_others_leave():
    """Period 1 step 3 of examples/pumping_test: storage is 500 less what the constant heads give, to its last place."""
    unit = 10**21
    flows = {
        "STORAGE": "498.160914334119820125330 498.166227168947438997716",
        "CONSTANT HEAD": "1.836335428399504856912 1.836521538799862064100",
    }
    terms = {name: [*(int(Fraction(w) * unit) for w in words.split()), 0, 0] for name, words in flows.items()}
    nets = {
        n[0]: n[3:] for n in budget_of(Step(1, 3, None, None, terms | {"WELLS": [0, 0, 500 * unit, 500 * unit]})).nets
    }
    assert nets["STORAGE"] == (500 * unit - 1836521538799862064100, 500 * unit - 1836335428399504856912)
    assert nets["CONSTANT HEAD"] == (1836335428399504856912, 1836521538799862064100)
    assert nets["WELLS"] == (-500 * unit, -500 * unit)


def test_each_budget_that_sums_to_zero_is_within_the_narrowed_bounds():
    draw = random.Random(5)
    for _ in range(300):
        into, out = [draw.randrange(1000) for _ in range(7)], [draw.randrange(1000) for _ in range(7)]
        rest = sum(out) - sum(into)
        into, out = into + [max(rest, 0)], out + [max(-rest, 0)]
        around = lambda v: (max(v - draw.randrange(50), 0), v + draw.randrange(50))
        terms = {str(n): [*around(a), *around(b)] for n, (a, b) in enumerate(zip(into, out))}
        budget = budget_of(Step(1, 1, None, None, terms))
        for name, low, high, narrow, tight in budget.nets:
            net = into[int(name)] - out[int(name)]
            assert low <= narrow <= net <= tight <= high
        assert not budget.is_empty


def test_bounds_that_no_budget_fits_are_seen():
    assert budget_of(Step(1, 1, None, None, {"WELLS": [0, 0, 100, 100], "RECHARGE": [150, 150, 0, 0]})).is_empty
