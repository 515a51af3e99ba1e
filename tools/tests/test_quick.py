"""Quick runs: the word is passed on, and what is said of a listing's pairs is that of the run that made these bytes."""
import os

import pytest
from conftest import TOOLS, heads

from heads_tools.commands.exhibit import same_bytes
from heads_tools.program.explain import explain
from heads_tools.listing.made_by import QUICK_PAIRS, SETTLED_PAIRS, keep_words, made_by

PLAIN, QUICK = SETTLED_PAIRS.split(":")[0], QUICK_PAIRS.split(",")[0]


@pytest.fixture
def notes(tmp_path, monkeypatch):
    """A program that notes its words and runs without --quick (settled pairs are such a pair, too): the notes."""
    script, notes = tmp_path / "quick_stand_in", tmp_path / "words"
    script.write_text(
        f"#!/bin/bash\necho \"$@\" >> '{notes}'\nfor w; do [ \"$w\" = --quick ] || kept+=(\"$w\"); done\n"
        f"exec '{os.environ['HEADS']}' \"${{kept[@]}}\"\n"
    )
    script.chmod(0o755)
    monkeypatch.setenv("HEADS", str(script))
    return notes


@pytest.mark.program
def test_run_passes_the_word_without_views_and_says_which_pairs_these_are(notes, example, tool):
    nam = example("three_cells")
    status, out, err = tool("run", nam, "--quick", "--digits", "9")
    assert status == 0 and notes.read_text() == "run a.nam --digits 9 --quick\n", out + err
    told = made_by(nam.with_suffix(".heads"))
    assert QUICK in out and told.startswith("Made by `heads run a.nam --digits 9 --quick`")
    assert tool("run", nam)[1].count("pairs") == 0 and PLAIN in made_by(nam.with_suffix(".heads"))
    assert notes.read_text().splitlines()[1] == "run a.nam --watch 1"


@pytest.mark.program
def test_what_is_kept_speaks_of_these_bytes_alone(example, tool):
    nam = example("three_cells")
    listing = nam.with_suffix(".heads")
    assert tool("run", nam)[0] == 0 and PLAIN in made_by(listing)
    text = listing.read_text()
    listing.write_text(text.replace("15.000000000 15", "14.000000000 15"))
    assert made_by(listing) == ""
    listing.write_text(text)
    assert PLAIN in made_by(listing)
    assert tool("run", nam, "--digits", "99")[0] == 1 and PLAIN in made_by(listing)
    (nam.parent / "a.heads.run").write_text("no words\n")
    assert made_by(listing) == ""
    listing.write_text(heads(["run", "a.nam"], nam.parent).stdout)
    (nam.parent / "a.heads.run").unlink()
    assert made_by(listing) == ""


@pytest.mark.program
def test_a_run_that_ends_early_keeps_no_words(example, tool):
    nam = example("no_answer")
    keep_words(nam, nam.name, [])
    nam.with_name(nam.name + ".run").rename(nam.with_suffix(".heads.run"))
    assert tool("run", nam)[0] == 3 and not nam.with_suffix(".heads.run").exists()


@pytest.mark.program
@pytest.mark.parametrize("options, kind", [([], PLAIN), (["--quick"], QUICK)])
def test_look_and_explain_say_which_pairs_a_listing_has(options, kind, notes, example, tool, tmp_path):
    nam = example("three_cells")
    assert tool("run", nam, *options)[0] == 0
    listing = nam.with_suffix(".heads")
    status, out, err = tool("look", listing, tmp_path / "look")
    assert status == 0 and kind in out and kind in (tmp_path / "look" / "index.html").read_text(), out + err
    assert kind in tool("explain", listing)[1]
    listing.with_name(listing.name + ".run").unlink()
    out = tool("look", listing, tmp_path / "again")[1] + tool("explain", listing)[1]
    assert PLAIN not in out and QUICK not in out


@pytest.mark.program
@pytest.mark.parametrize("way", [[], ["--parallel"]])
def test_batch_passes_the_word_and_keeps_the_words_of_each_model(way, notes, example, tool, tmp_path, monkeypatch):
    nam = example("three_cells")
    (tmp_path / "bin").mkdir()
    (tmp_path / "bin" / "parallel").write_text('#!/bin/bash\nread -r NAM; one "$NAM"\n')
    (tmp_path / "bin" / "parallel").chmod(0o755)
    monkeypatch.setenv("PATH", str(tmp_path / "bin"), prepend=os.pathsep)
    (tmp_path / "plans.list").write_text("three_cells/a.nam\n")
    status, out, err = tool("batch", tmp_path / "plans.list", "--quick", *way)
    assert status == 0 and "--quick" in notes.read_text().splitlines()[0], out + err
    assert QUICK in made_by(nam.with_suffix(".heads"))


SLOW_PROGRAM = """#!/bin/bash
sleep 0.8
printf 'HEADS 2 DIGITS 12 UNIT 2\\nSTEP 1 1\\nEND\\n'
"""


@pytest.mark.parametrize("options, is_said", [([], True), (["--quick"], False)])
def test_the_progress_of_a_step_that_takes_over_a_minute_names_the_word(
    options, is_said, example, tool, tmp_path, monkeypatch
):
    from heads_tools.program import follow

    program = tmp_path / "heads"
    program.write_text(SLOW_PROGRAM)
    program.chmod(0o755)
    monkeypatch.setenv("HEADS", str(program))
    monkeypatch.setattr(follow, "SLOW", 0.2)
    monkeypatch.setattr(follow, "LONG", 0.5)
    status, out, err = tool("run", example("three_cells"), *options)
    lines = [line for line in err.splitlines() if "so far" in line and "step 1 of 1:" in line and "widest" not in line]
    assert status == 0 and len(lines) > 1 and "--quick" not in lines[0], err
    assert lines[-1].endswith("over a minute: --quick takes a few solves, for wider pairs") == is_said, err


def test_an_exhibit_of_a_quick_run_compares_no_bytes():
    assert same_bytes("run", "a.heads", []) == ["(run) | cmp - a.heads && echo SAME"]
    assert same_bytes("run", "a.heads", ["--quick"]) == []


@pytest.mark.program
def test_an_exhibit_says_which_pairs_its_listing_has(example, tool, tmp_path):
    options = [["--quick"]] if takes_quick() else []
    nam = example("three_cells")
    for n, words in enumerate([[], *options]):
        folder = tmp_path / f"exhibit{n}"
        assert tool("exhibit", nam, folder, *words)[0] == 0
        text = (folder / "EXHIBIT.txt").read_text()
        assert (QUICK if words else PLAIN) in text and text.count("cmp - a.heads") == (0 if words else 2)
        assert (QUICK if words else PLAIN) in (folder / "look" / "index.html").read_text()
        assert "  a.heads.run\n" in (folder / "SHA256SUMS").read_text()


def takes_quick():
    """Whether the program knows --quick."""
    return not heads(["run", "a.nam", "--quick"], TOOLS).stdout.startswith("USAGE")


def test_explain_names_the_word(tmp_path):
    said = " ".join(explain("USAGE: heads run NAME", tmp_path).lines)
    assert "--quick (run and batch, without --watch)" in said
    assert "--quick" in " ".join(explain("UNFINISHED 1 1", tmp_path).lines)
