"""recheck_plan.py: it holds what an independent program listed of a plan, and names what was spoilt.

The decks of plan_listing/ have a river that the plan leaves dry in one weather and not in the other, a drain,
evapotranspiration between its elevations, a general head, a constant one and storage. one.txt is of m.nam, two.txt
of m.nam and h.nam: both made in whole numbers by a program in Python that shares no code with `heads` or these tools.
"""
import re
import shutil
import subprocess
import sys

import pytest
from conftest import TOOLS

SCRIPT, DECKS = TOOLS / "recheck_plan.py", TOOLS / "tests" / "plan_listing"
ONE, TWO = ("one.txt", "m.zon"), ("two.txt", "--to", "h.nam")


@pytest.fixture
def decks(tmp_path):
    return shutil.copytree(DECKS, tmp_path / "decks")


def recheck(folder, listing, *more, wells="plan.wel"):
    words = [sys.executable, SCRIPT, "m.nam", listing, wells, *more]
    done = subprocess.run(words, cwd=folder, capture_output=True, text=True)
    assert "Traceback" not in done.stderr, done.stderr
    return done.returncode, done.stdout.strip()


def spoilt(folder, listing, change):
    """The listing with the first line that `change` changes changed."""
    lines = (folder / listing).read_text().split("\n")
    at = next(n for n, line in enumerate(lines) if change(line) != line)
    lines[at] = change(lines[at])
    (folder / listing).write_text("\n".join(lines))


def number_of(begin, place, by):
    """Moves a number of the first line that begins so by units of its last place."""

    def change(line):
        if not line.startswith(begin):
            return line
        words = line.split(" ")
        digits = words[place].partition(".")[2]
        units = int(words[place].replace(".", "")) + by
        text = f"{abs(units):0{len(digits) + 1}d}"
        words[place] = "-" * (units < 0) + text[: -len(digits)] + "." + text[-len(digits) :]
        return " ".join(words)

    return change


def test_it_stays_short_and_stands_on_recheck_alone():
    text = SCRIPT.read_text()
    imported = set(re.findall(r"^(?:import|from) (\w+)", text, re.M))
    assert text.count("\n") <= 300 and max(map(len, text.split("\n"))) <= 120
    assert imported == {"copy", "fractions", "recheck", "sys", "typing"}


@pytest.mark.parametrize("words", [ONE, TWO])
def test_it_holds_what_an_independent_program_listed(words, decks):
    assert recheck(decks, *words) == (0, "HOLDS")


@pytest.mark.parametrize(
    "words, change, said",
    [
        (ONE, number_of("BASE 1 1 3", 4, 1000), "BASE: period 1 step 1 1 1 3 LOW"),
        (ONE, number_of("PLAN 1 1 2", 5, -1000), "PLAN: period 1 step 1 1 1 2 HIGH"),
        (TWO, number_of("DRAWDOWN 1 1 2", 4, 100000), "DRAWDOWN: period 1 step 1 1 1 2 LOW"),
        (TWO, number_of("DRAWDOWN 1 1 2", 5, -100000), "DRAWDOWN: period 1 step 1 1 1 2 HIGH"),
        (ONE, number_of("DRAWDOWN 1 1 5", 4, 1), "DRAWDOWN: period 1 step 1 1 1 5 LOW"),
        (ONE, number_of("SOURCE", 1, 10**14), "SOURCE STORAGE"),
        (ONE, number_of("ZONE 2 3", 4, -(10**14)), "ZONE 2 3"),
        (ONE, lambda line: line.replace("STEP 1 2", "STEP 1 1"), "line"),
        (ONE, lambda line: line.replace("DRAWDOWN 1 DIGITS", "HEADS 2 DIGITS"), "line 1"),
        (TWO, lambda line: line.replace(" TO", ""), "line 1"),
    ],
)
def test_it_names_what_is_spoilt(words, change, said, decks):
    spoilt(decks, words[0], change)
    status, line = recheck(decks, *words)
    assert status == 1 and said in line, line


def test_ends_of_a_drawdown_that_are_exchanged_are_noticed(decks):
    def exchanged(line):
        words = line.split(" ")
        return " ".join([*words[:4], words[5], words[4]]) if line.startswith("DRAWDOWN 1 1 2") else line

    spoilt(decks, "two.txt", exchanged)
    assert recheck(decks, *TWO)[0] == 1


def test_wells_that_are_taken_off_in_place_of_added_are_noticed(decks):
    (decks / "turned.wel").write_text((decks / "plan.wel").read_text().replace("-", ""))
    status, line = recheck(decks, *ONE, wells="turned.wel")
    assert status == 1 and "PLAN" in line


def test_a_listing_of_two_decks_is_none_of_one(decks):
    assert recheck(decks, "two.txt")[0] == 1 and recheck(decks, "one.txt", "--to", "h.nam")[0] == 1


def test_other_words_and_what_cannot_be_read_have_their_status(decks):
    assert recheck(decks, "one.txt", "m.zon", "and", "more")[0] == 3
    assert recheck(decks, "one.txt", "m.zon", wells="none.wel")[0] == 2
