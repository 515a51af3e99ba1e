"""The word --wide: `run` takes it by itself where an end asks for it, the other commands pass it on."""
import os

import pytest
from conftest import TOOLS, heads

from heads_tools.common import limits
from heads_tools.program.explain import explain
from heads_tools.common.limits import asks_for_wide
from heads_tools.listing.made_by import is_made_wide
from heads_tools.deck.packages import read_deck

CASES = [
    ("NOBOUND 26 RangeLow 1 1 1 1 2", True),
    ("NOBOUND 27 RangeHigh 1 1 1 1 2", True),
    ("NOBOUND 22 ConductanceTooLarge 1 1 1 1 2", False),
    ("REFUSED 12 BadGrid large.dis 1", True),
    ("REFUSED 12 BadGrid long.dis 2", True),
    ("REFUSED 12 BadGrid too_large.dis 1", False),
    ("REFUSED 12 BadGrid small.dis 1", False),
    ("REFUSED 17 TooManyEntries many.wel 2", True),
    ("REFUSED 17 TooManyEntries too_many.wel 2", False),
    ("REFUSED 2 TooLong big.lpf 0", True),
    ("REFUSED 2 TooLong none.lpf 0", False),
    ("REFUSED 15 BadProperty large.dis 0 1 1 1", False),
    ("USAGE: heads run NAME", False),
    ("END", False),
    ("", False),
]
FILES = {
    "large.dis": "1 256 257 1 4 2\n",
    "long.dis": "# a comment\n1 1 4096 1 4 2\n",
    "too_large.dis": "1 1 4097 1 4 2\n",
    "small.dis": "1 1 3 1001 4 2\n",
    "many.wel": "0 0\n65537 0\n",
    "too_many.wel": "0 0\n4194305 0\n",
}


@pytest.mark.parametrize("last, is_asked", CASES)
def test_an_end_asks_for_the_word_where_the_wide_limits_can_change_it(last, is_asked, tmp_path, monkeypatch):
    for name, text in FILES.items():
        (tmp_path / name).write_text(text)
    with open(tmp_path / "big.lpf", "wb") as file:
        file.truncate(limits.PLAIN.bytes + 1)
    assert asks_for_wide(last, tmp_path) == is_asked


STAND_IN = """#!/bin/bash
echo "$@" >> '{notes}'
for w; do [ "$w" = --wide ] && is_wide=1 || kept+=("$w"); done
if [ "$1" = run ] && [ -z "$is_wide" ]; then
    echo 'HEADS 2 DIGITS 12 UNIT 2'; echo '{end}'; exit 3
fi
exec '{heads}' "${{kept[@]}}"
"""


@pytest.fixture
def notes(tmp_path, monkeypatch):
    """A program that notes its words, and whose runs without --wide end with a floor out of range: the notes."""
    script, notes = tmp_path / "wide_stand_in", tmp_path / "words"
    end = "NOBOUND 26 RangeLow 1 1 1 1 2"
    script.write_text(STAND_IN.format(notes=notes, end=end, heads=os.environ["HEADS"]))
    script.chmod(0o755)
    monkeypatch.setenv("HEADS", str(script))
    return notes


def noted(notes):
    return [line for line in notes.read_text().splitlines() if line != "run a.nam --wide"]


@pytest.mark.program
def test_run_takes_the_word_by_itself_and_says_so_on_standard_error(notes, example, tool):
    nam = example("three_cells")
    status, out, err = tool("run", nam, "--digits", "9")
    assert status == 0 and "NOBOUND 26 RangeLow 1 1 1 1 2: once more with --wide" in err, out + err
    assert noted(notes) == ["run a.nam --digits 9 --watch 1", "run a.nam --digits 9 --wide --watch 1"]
    assert "Made by `heads run a.nam --digits 9 --wide`" in out and is_made_wide(nam.with_suffix(".heads"))
    assert "Made by `heads run a.nam --digits 9 --wide`" in tool("explain", nam.with_suffix(".heads"))[1]


@pytest.mark.program
def test_the_word_that_is_given_is_passed_on(notes, example, tool, tmp_path):
    nam = example("three_cells")
    assert tool("run", nam, "--wide")[0] == 0 and "once more" not in tool("run", nam, "--wide")[2]
    assert notes.read_text().splitlines()[:2] == ["run a.nam --wide --watch 1"] * 2
    listing = nam.with_suffix(".heads")
    (tmp_path / "plans.list").write_text("three_cells/a.nam\n")
    assert tool("batch", tmp_path / "plans.list", "--wide")[0] == 0 and is_made_wide(listing)


@pytest.mark.program
def test_a_check_has_the_word_of_the_run_or_that_of_its_own_words(notes, example, tool, tmp_path):
    nam = example("three_cells")
    listing, heads_file = nam.with_suffix(".heads"), tmp_path / "m.hds"
    assert tool("run", nam)[0] == 0
    assert tool("hds", listing, heads_file, "--name", nam)[0] == 0
    commands = [
        ("check", nam, listing),
        ("compare", listing, heads_file, "--name", nam),
    ]

    def words(command, *more):
        notes.write_text("")
        status, out, err = tool(*command, *more)
        assert status == 0, out + err
        return notes.read_text()

    for command in commands:
        assert words(command).rstrip().endswith(" --wide")
    listing.with_name(listing.name + ".run").unlink()
    for command in commands:
        assert "--wide" not in words(command) and words(command, "--wide").rstrip().endswith(" --wide")
    assert " --wide" in words(("certify", nam, heads_file), "--wide")


@pytest.mark.program
def test_an_older_program_is_not_asked_again(example, tool, tmp_path, monkeypatch):
    script = tmp_path / "old"
    script.write_text(
        '#!/bin/bash\nfor w; do [ "$w" = --wide ] && { echo "USAGE: heads"; exit 1; }; done\n'
        "echo 'HEADS 2 DIGITS 12 UNIT 2'; echo 'NOBOUND 26 RangeLow 1 1 1 1 2'; exit 3\n"
    )
    script.chmod(0o755)
    monkeypatch.setenv("HEADS", str(script))
    status, out, err = tool("run", example("three_cells"))
    assert status == 3 and "RangeLow" in out and "once more" not in err and "--wide" in out


def large_deck(folder, columns=1025):
    """A row of constant heads that is longer than the plain limits take."""
    texts = {
        "a.nam": "DIS 11 a.dis\nBAS6 12 a.bas\nLPF 13 a.lpf\n",
        "a.dis": f"1 1 {columns} 1 4 2\n0\n" + "CONSTANT 1\n" * 3 + "CONSTANT 0\n1 1 1 SS\n",
        "a.bas": "FREE\nCONSTANT -1\n-999.99\nCONSTANT 7\n",
        "a.lpf": "0 -1E+30 0\n0\n0\n1\n0\n0\nCONSTANT 1\nCONSTANT 1\n",
    }
    for name, text in texts.items():
        (folder / name).write_text(text)
    return folder / "a.nam"


def test_a_deck_within_the_wide_limits_is_read_and_what_asks_for_the_word_is_noted(tmp_path):
    deck, report = read_deck(large_deck(tmp_path))
    assert deck.ncol == 1025 and not report.refusals and "--wide" in str(report.wide[0])
    assert read_deck(large_deck(tmp_path, 4097))[1].refusals and not read_deck(large_deck(tmp_path, 1024))[1].wide


def takes_wide():
    """Whether the program knows --wide."""
    return not heads(["run", "a.nam", "--wide"], TOOLS).stdout.startswith("USAGE")


@pytest.mark.program
def test_a_large_deck_is_run_checked_written_and_exhibited_with_the_word(tool, tmp_path):
    if not takes_wide():
        pytest.skip("no program that takes --wide")
    (tmp_path / "deck").mkdir()
    nam = large_deck(tmp_path / "deck")
    status, out, err = tool("run", nam)
    listing = nam.with_suffix(".heads")
    assert status == 0 and "REFUSED 12 BadGrid a.dis 1: once more with --wide" in err, out + err
    assert "CERTIFIED" in tool("check", nam, listing)[1]
    status, out, err = tool("inside", nam)
    assert status == 0 and "give --wide" in out and "the program reads it with --wide" in out, out + err
    assert tool("plain", nam, tmp_path / "plain")[0] == 0
    assert heads(["run", "p.nam", "--wide"], tmp_path / "plain").stdout == listing.read_text()
    assert tool("exhibit", nam, tmp_path / "exhibit", "--wide")[0] == 0
    text = (tmp_path / "exhibit" / "EXHIBIT.txt").read_text()
    assert text.count("--wide") > 4 and "HOLDS" in text and "CERTIFIED" in text


def test_explain_names_the_word(tmp_path):
    large_deck(tmp_path)
    for last in ("NOBOUND 26 RangeLow 1 1 1 1 2", "NOBOUND 27 RangeHigh 1 1 1 1 2", "REFUSED 12 BadGrid a.dis 1"):
        assert "--wide" in " ".join(explain(last, tmp_path).lines)
    for last in ("REFUSED 17 TooManyEntries a.wel 2", "REFUSED 2 TooLong a.lpf 0", "USAGE: heads run NAME"):
        assert "--wide" in " ".join(explain(last, tmp_path).lines)
