"""Listings of two decks: how they are asked for, shown, compared and spoken of."""
import shutil
import subprocess

import numpy as np
import pytest
from conftest import TOP, heads

from heads_tools.program.explain import explain
from heads_tools.listing.listing import Listing, Step, read_listing
from heads_tools.deck.packages import read_deck
from heads_tools.deck.differences import what_differs
from heads_tools.listing.what_is_said import words_of

VALLEY = TOP / "examples" / "valley_between"
LISTED = VALLEY / "expect.txt"


@pytest.fixture
def valley(tmp_path):
    """A copy of the two decks with their listing: the folder."""
    folder = shutil.copytree(VALLEY, tmp_path / "valley")
    (folder / "expect.txt").rename(folder / "from-to.heads")
    return folder


@pytest.fixture
def stand_in(tmp_path, monkeypatch):
    """A program that lists the valley and certifies it, and notes the words that it was called with: the notes."""
    script, notes = tmp_path / "stand_in", tmp_path / "words"
    script.write_text(
        f"#!/bin/sh\necho \"$@\" >> '{notes}'\n"
        f"case $1 in run) cat '{LISTED}';; *) echo CERTIFIED;; esac\n"
    )
    script.chmod(0o755)
    monkeypatch.setenv("HEADS", str(script))
    return notes


def run_of(deck, folder, wells="1", recharge="1"):
    """The listing of the deck that `between` writes with these factors."""
    from heads_tools.deck.decks_between import Ranges, write_between
    from heads_tools.deck.ranges import Range

    write_between(deck, folder, Ranges(Range(wells, wells), Range(recharge, recharge)))
    path = folder / "from.heads"
    path.write_text(heads(["run", "from.nam"], folder).stdout)
    return read_listing(path)


@pytest.mark.program
def test_the_listing_of_the_valley_has_the_worst_cases_of_both_sides(example, tmp_path):
    """The lower heads are those of the run with full wells and 80 % of the recharge, the upper ones those of no wells
    and 120 %: neither deck is one of the two, which have most wells with most recharge and none with least."""
    nam, listing = example("river_valley"), read_listing(LISTED)
    dry = run_of(nam, tmp_path / "dry", "1", "0.8")
    wet = run_of(nam, tmp_path / "wet", "0", "1.2")
    assert (listing.steps[0].low == dry.steps[0].low).all() and (listing.steps[0].high == wet.steps[0].high).all()
    at = listing.at((1, 8, 17))
    assert (int(listing.steps[0].low[at]), int(listing.steps[0].high[at])) == (6717665865, 13647057736)
    for wells, recharge in (("0", "0.8"), ("1", "1.2"), ("0.3", "1")):
        step = run_of(nam, tmp_path / f"{wells}_{recharge}", wells, recharge).steps[0]
        assert (listing.steps[0].low <= step.low).all() and (step.high <= listing.steps[0].high).all()


def test_the_first_line_tells_a_listing_of_two_decks():
    listing = read_listing(LISTED)
    assert listing.is_span and listing.is_whole and len(listing.cells) == 600
    assert "widest range" in listing.summary()


def test_run_passes_the_second_deck_on_and_leaves_the_first_decks_listing(valley, stand_in, tool):
    (valley / "from-to.heads").unlink()
    status, out, err = tool("run", valley / "from.nam", "--to", valley / "to.nam", "--digits", "12")
    assert status == 0 and "run from.nam --digits 12 --to to.nam" in stand_in.read_text(), out + err
    assert (valley / "from-to.heads").read_bytes() == LISTED.read_bytes() and not (valley / "from.heads").exists()


def test_a_second_deck_that_is_named_by_its_name_alone_lies_beside_the_first_one(valley, stand_in, tool):
    (valley / "from-to.heads").unlink()
    status, out, err = tool("run", valley / "from.nam", "--to", "to.nam")
    assert status == 0 and "run from.nam --to to.nam" in stand_in.read_text(), out + err


def test_check_passes_the_second_deck_on_and_says_what_holds(valley, stand_in, tool):
    status, out, err = tool("check", valley / "from.nam", valley / "from-to.heads", "--to", "to.nam")
    assert status == 0 and "whatever the stresses are between those of the two decks" in out, err
    assert stand_in.read_text().endswith("--digits 12 --to to.nam\n")


def test_a_second_deck_belongs_to_a_listing_of_two_and_to_no_other(valley, stand_in, tool, tmp_path):
    listing = valley / "from-to.heads"
    status, out, err = tool("check", valley / "from.nam", listing)
    assert status == 2 and "name the second" in err
    one = valley / "one.heads"
    one.write_text(listing.read_text().replace(" TO\n", "\n", 1))
    status, out, err = tool("check", valley / "from.nam", one, "--to", "to.nam")
    assert status == 2 and "leave --to out" in err
    status, out, err = tool("look", listing, tmp_path / "look", "--to", valley / "to.nam")
    assert status == 2 and "--name" in err
    (tmp_path / "to.nam").write_text("")
    status, out, err = tool("run", valley / "from.nam", "--to", tmp_path / "to.nam")
    assert status == 2 and "another folder" in err


def test_look_shows_both_worst_cases_and_the_range(tool, tmp_path):
    status, out, err = tool("look", LISTED, tmp_path / "look", "--cell", "1,8,17")
    assert status == 0, err
    text = (tmp_path / "look" / "index.html").read_text()
    for side in ("lower", "upper", "range"):
        assert (tmp_path / "look" / f"{side}_layer1_p1_s1.png").is_file() and f"{side}_layer1_p1_s1.png" in text
    row = "<td>1 8 17</td><td>6.717665865</td><td>13.647057736</td><td>6.929391871</td>"
    assert row in text and "the worst case where heads must not fall" in text
    assert "percent discrepancy" not in text


def test_look_draws_bands_over_time(tool, tmp_path):
    listing = tmp_path / "a.heads"
    step = "STEP 1 {0}\nHEAD 1 1 1 {0}.000000000 {1}.500000000\nHEAD 1 1 2 2.000000000 4.000000000\n"
    listing.write_text("HEADS 2 DIGITS 12 UNIT 2 TO\n" + step.format(1, 3) + step.format(2, 5) + "END\n")
    assert tool("look", listing, tmp_path / "look")[0] == 0
    text = (tmp_path / "look" / "index.html").read_text()
    assert "hydrographs.png" in text and "The ranges are at most 3.500000000 m wide" in text
    assert "<td>1 1 1</td><td>2.000000000</td><td>5.500000000</td><td>3.500000000</td>" in text


@pytest.mark.program
def test_a_run_of_a_deck_between_lies_inside_and_one_of_another_deck_outside(example, tool, tmp_path):
    nam = example("river_valley")
    for wells, said in (
        ("0.5", "every given head lies between the bounds"),
        ("1.5", "no exact solution of a deck between the two has these heads"),
    ):
        listing = run_of(nam, tmp_path / wells, wells).path
        assert tool("hds", listing, tmp_path / "run.hds")[0] == 0
        status, out, err = tool("compare", LISTED, tmp_path / "run.hds")
        assert status == 0 and said in out and "off by at most" not in out, out + err


def test_explain_says_that_it_is_a_listing_of_two_decks(tool):
    status, out, err = tool("explain", LISTED)
    assert status == 0 and "listing of two decks" in out


@pytest.mark.parametrize(
    "place, said",
    [
        ("to.wel 0 1 8 17", "the rate 0"),
        ("to.wel 0", "the rate 0"),
        ("both.lpf 0 1 3 4", "Run the two decks with each of the values"),
        ("both.dis 0", "the same grid, elevations and stress periods"),
        ("both.riv 0", "the conductance 0"),
        ("to.rch 0", "the same IRCH"),
        ("to.nam 0", "Only one of the decks has a package"),
    ],
)
def test_explain_says_what_is_not_alike(place, said):
    meaning = explain(f"REFUSED 28 NotAlike {place}", VALLEY)
    assert meaning.status == 2 and "aren't of one shape" in meaning.lines[0] and said in meaning.lines[-1]


def test_what_needs_one_deck_refuses_a_listing_of_two(tool, tmp_path):
    (tmp_path / "points.csv").write_text("name,x,y,layer,time,measured\na,50,50,1,1,9\n")
    for words in (
        ("drawdown", LISTED, LISTED, tmp_path / "fall"),
        ("hds", LISTED, tmp_path / "a.hds"),
        ("observe", LISTED, tmp_path / "points.csv", "--name", VALLEY / "from.nam"),
    ):
        status, out, err = tool(*words)
        assert status == 2 and ("two decks" in err or "one deck" in err), (words, err)
    assert tool("hds", LISTED, tmp_path / "a.hds", "--lower")[0] == 0


def test_what_may_be_said_is_rounded_outward_to_thousandths():
    steps = [
        Step(1, 1, np.array([5_000_000_000, 6_717_665_865]), np.array([5_100_000_000, 13_000_000_000])),
        Step(1, 2, np.array([5_000_000_000, 6_800_000_000]), np.array([5_100_000_000, 13_647_000_000])),
    ]
    listing = Listing(LISTED, 12, 2, steps, np.array([[1, 1, 1], [1, 8, 17]]), "END", is_span=True)
    said = words_of(listing, "m", ["pumping", "recharge"], [(1, 8, 17)])
    assert "In layer 1, row 8, column 17 the head stays above 6.717 m and below 13.648 m" in said.may[0]
    assert "within the permits" in said.may[0]
    assert said.may[1].startswith("This holds for every pumping and every recharge between those of the two decks")
    assert "the uncertainty of the model" in said.may_not[0] and "likely range" in said.may_not[0]


def test_what_differs_between_two_decks_is_named():
    decks = [read_deck(VALLEY / name)[0] for name in ("from.nam", "to.nam")]
    assert what_differs(*decks) == ["pumping", "recharge"] and what_differs(decks[0], decks[0]) == []


@pytest.mark.spans
def test_an_exhibit_of_two_decks_says_what_holds_between_them(valley, tool, tmp_path):
    (valley / "from-to.heads").unlink()
    folder = tmp_path / "exhibit"
    status, out, err = tool("exhibit", valley / "from.nam", folder, "--to", valley / "to.nam")
    assert status == 0, out + err
    assert (folder / "from-to.heads").read_bytes() == LISTED.read_bytes()
    for file in ("EXHIBIT.txt", "judge.html"):
        text = (folder / file).read_text()
        may, may_not = (
            text.index("holds for every pumping and every recharge between"),
            text.index("the uncertainty of the model"),
        )
        assert text.index("What may be said") < may < text.index("What may not be said") < may_not
    assert "for every deck between two" in (folder / "look" / "index.html").read_text()
    assert "HOLDS (status 0)" in (folder / "EXHIBIT.txt").read_text()
    for command in (line.strip() for line in out.split("\n") if line.startswith("    ")):
        done = subprocess.run(["sh", "-c", command], cwd=folder, capture_output=True, text=True)
        assert done.returncode == 0, command
