"""Listings of what a plan does: read, drawn, and taken in place of difference decks where the program has the word.

The listings of plan_listing/ are those of an independent program. `heads` here is a script that puts them and certifies
them where --plan is asked for, and calls the program for all else.
"""
import csv
import shutil

import pytest
from conftest import TOOLS, program

from heads_tools import Problem, drawdown_whatever, read_listing
from heads_tools.listing.plan_listing import is_plan_listing, read_plan_listing

DECKS = TOOLS / "tests" / "plan_listing"
SCRIPT = """#!/bin/sh
case "$1 $*" in
  "run "*--plan*--to*) cat '{decks}/two.txt' ;;
  "run "*--plan*) grep -v ^ZONE '{decks}/one.txt' ;;
  "check "*--plan*) echo CERTIFIED ;;
  *) exec '{program}' "$@" ;;
esac
"""


@pytest.fixture
def decks(tmp_path):
    return shutil.copytree(DECKS, tmp_path / "decks")


@pytest.fixture
def with_plans(decks, tmp_path, monkeypatch):
    """A program that knows --plan."""
    path = tmp_path / "heads"
    path.write_text(SCRIPT.format(decks=DECKS, program=program()))
    path.chmod(0o755)
    monkeypatch.setenv("HEADS", str(path))
    return decks


def rows(path):
    with path.open() as file:
        return list(csv.DictReader(file))


def test_it_is_read():
    listing = read_plan_listing(DECKS / "two.txt")
    assert listing.drawdown.is_span and listing.drawdown.end == "END" and len(listing.drawdown.steps) == 3
    last = listing.drawdown.steps[-1]
    at = listing.drawdown.at((1, 1, 2))
    assert (last.period, last.step) == (2, 1) and (last.low[at], last.high[at]) == (456001505, 979309253)
    assert listing.base.steps[-1].low[at] == 10057343530 and listing.planned.steps[-1].high[at] == 10045375930
    assert listing.sources[-1]["CONSTANT HEAD"] == (3012210539999899592982, 7219927590000240664253)
    assert list(listing.sources[-1]) == [
        "STORAGE", "CONSTANT HEAD", "DRAINS", "RIVER LEAKAGE", "HEAD DEP BOUNDS", "ET"
    ]  # fmt: skip


def test_flows_between_zones_are_read():
    last = read_plan_listing(DECKS / "one.txt").drawdown.steps[-1]
    assert last.zones[0] == (1, 2, -4367802316666754022713, -4367802099999825287916)


def test_one_that_ended_early_is_read_as_far_as_its_steps_are_whole(decks):
    lines = (decks / "one.txt").read_text().split("\n")
    at = max(n for n, line in enumerate(lines) if line.startswith("STEP"))
    (decks / "part.heads").write_text("\n".join(lines[: at + 5]))
    assert len(read_plan_listing(decks / "part.heads").sources) == 2


@pytest.mark.parametrize(
    "old, new, said",
    [
        ("PLAN 1 1 3", "PLAN 1 1 2", "aren't in the order"),
        ("DRAWDOWN 1 1 2 ", "DRAWDOWN 1 1 2 nan ", "isn't of the form"),
        ("SOURCE ", "SINK ", "begins with `SINK`"),
        ("DRAWDOWN 1 DIGITS", "DRAWDOWN 2 DIGITS", "line 1"),
    ],
)
def test_a_spoilt_line_is_named(old, new, said, decks):
    (decks / "spoilt.heads").write_text((decks / "one.txt").read_text().replace(old, new, 1))
    with pytest.raises(Problem, match=said):
        read_plan_listing(decks / "spoilt.heads")


def test_it_is_no_listing_of_heads():
    assert is_plan_listing(DECKS / "one.txt")
    with pytest.raises(Problem, match="what a plan does"):
        read_listing(DECKS / "one.txt")


@pytest.mark.program
def test_look_draws_it_with_its_own_numbers(with_plans, tool, tmp_path):
    words = "look", with_plans / "two.txt", tmp_path / "out", "--name", with_plans / "m.nam"
    status, out, err = tool(*words, "--plan", with_plans / "plan.wel", "--to", "h.nam", "--cell", "1,1,4")
    assert status == 0 and "CERTIFIED (two.txt)" in out and "isn't proved" not in out, out + err
    assert "DRAWDOWN 1 1 4 0.100407018 0.240664253" in out
    assert "SOURCE 3.012210539999899592982 7.219927590000240664253 CONSTANT HEAD" in out
    last = rows(tmp_path / "out" / "drawdown.csv")[-4]
    assert (last["drawdown_lower"], last["drawdown_upper"]) == ("0.456001505", "0.979309253")
    assert "sums_lower" not in rows(tmp_path / "out" / "source.csv")[0]
    page = (tmp_path / "out" / "index.html").read_text()
    assert "m.nam: 1 x 1 x 5 cells" in page and page.count(read_plan_listing(DECKS / "two.txt").drawdown.sha256) == 1


@pytest.mark.program
def test_look_shows_what_flows_more_between_zones(with_plans, tool, tmp_path):
    words = "look", with_plans / "one.txt", tmp_path / "out", "--name", with_plans / "m.nam"
    status, out, err = tool(*words, "--plan", with_plans / "plan.wel", "--zones", with_plans / "m.zon")
    page = (tmp_path / "out" / "index.html").read_text()
    assert status == 0 and "What flows more between zones" in page and "-4.368" in page, out + err


@pytest.mark.program
def test_look_asks_for_the_deck_and_the_wells(with_plans, tool, tmp_path):
    status, out, err = tool("look", with_plans / "one.txt", tmp_path / "out")
    assert status == 2 and "--name and --plan" in err and not (tmp_path / "out").exists(), out + err


@pytest.mark.program
def test_drawdown_takes_the_programs_own_listing(with_plans, tool, tmp_path):
    words = "drawdown", with_plans / "m.nam", with_plans / "plan.wel", "--to", "h.nam", tmp_path / "out"
    status, out, err = tool(*words)
    assert status == 0 and "DRAWDOWN 1 1 2 0.456001505 0.979309253" in out, out + err
    assert "isn't proved by machine" not in out and not (tmp_path / "out" / "difference_low.nam").exists()
    page = (tmp_path / "out" / "index.html").read_text()
    assert "heads check base.nam drawdown.heads --plan added.wel --to base_high.nam" in page


@pytest.mark.program
def test_the_call_returns_the_drawdown(with_plans, tmp_path):
    answer = drawdown_whatever(with_plans / "m.nam", with_plans / "plan.wel", tmp_path / "out", with_plans / "h.nam")
    assert answer.listing.is_change and answer.listing.steps[-1].high.max() == 979309253


@pytest.mark.program
def test_an_exhibit_has_the_plan_its_rechecks_and_the_sentence_for_a_permit(with_plans, tool, tmp_path, monkeypatch):
    for module in ("exhibit", "exhibit_plan"):
        monkeypatch.setattr(f"heads_tools.commands.{module}.program_file", lambda: tmp_path / "heads")
    words = "exhibit", with_plans / "m.nam", tmp_path / "exhibit", "--to", "h.nam", "--plan", "plan.wel"
    status, out, err = tool(*words)
    assert status == 0, out + err
    text = (tmp_path / "exhibit" / "EXHIBIT.txt").read_text()
    assert "recheck      HOLDS (status 0)" in text
    assert "(cd deck && ../heads check m.nam ../m-h-plan.heads --plan plan.wel --digits 12 --to h.nam)" in text
    assert "(cd deck && python3 ../recheck_plan.py m.nam ../m-h-plan.heads plan.wel --to h.nam)" in text
    assert "lowers the head at layer 1 row 1 column 2" in text and "isn't proved by machine" not in text
    for file in "recheck.py recheck_plan.py deck/plan.wel deck/h.nam look/index.html look/source.csv".split():
        assert (tmp_path / "exhibit" / file).is_file(), file


@pytest.mark.program
@pytest.mark.parametrize("listing, said", [("one.txt", "of another model"), ("cut.heads", "isn't whole")])
def test_a_listing_of_another_model_and_one_that_was_cut_are_refused(listing, said, with_plans, tool, tmp_path):
    (with_plans / "cut.heads").write_text("".join((with_plans / "one.txt").read_text().partition("STEP 2")[0]))
    if listing == "one.txt":
        (with_plans / "m.bas").write_text((with_plans / "m.bas").read_text().replace("1 1 1 1 -1", "1 1 0 1 -1"))
    words = "look", with_plans / listing, tmp_path / "out", "--name", with_plans / "m.nam"
    status, out, err = tool(*words, "--plan", with_plans / "plan.wel")
    assert status == 2 and said in err and not (tmp_path / "out").exists(), out + err


@pytest.mark.program
def test_a_run_with_a_plan_has_a_listing_of_its_own_name(with_plans, tool):
    status, out, err = tool("run", with_plans / "m.nam", "--to", "h.nam", "--plan", "plan.wel")
    assert status == 0 and "m-h-plan.heads" in out and "drawdown: 3 steps of 5 cells" in out, out + err
    assert is_plan_listing(with_plans / "m-h-plan.heads") and not (with_plans / "m.heads").exists()
