"""`inside` and `plain` end as the program does, `run` says where MODFLOW-2005 reads a deck otherwise, and each sentence
of `explain` fits its line."""
import pytest
import spelled
from conftest import heads
from spelled import PLAIN

IBOUND_ROW = "-1 1 1 0 1\n"
HK = "INTERNAL 1 (FREE) -1\n1 2 3 4 5\n6 7 8 9 10\n1.5 2.5 3.5 4.5 5.5\n10 9 8 7 6\n"
HK_TABBED = "INTERNAL 1 (5F4.1) -1\n" + ("1.0\t" * 5 + "\n") * 4
REFUSED = {
    "ibound with points": ("m.bas", IBOUND_ROW, "-1. 1. 1. 0. 1.\n", "where a whole number is due"),
    "laytyp with points": ("m.lpf", "0 0\n0 0\n1 1\n", "0. 0.\n0 0\n1 1\n", "LAYTYP has `0.`"),
    "no conductivity": ("m.lpf", "6 7 8 9 10\n", "6 7 0 9 10\n", "the cell 1 2 3 (layer row column): HK isn't above 0"),
    "given head twice": ("m.chd", "0 0\n1 0\n2 1 5 20 21\n", "0 0\n2 0\n2 1 5 20 21\n2 1 5 20 21\n", "stands twice"),
    "comment in an array": (
        "m.lpf",
        "6 7 8 9 10\n",
        "# row 2\n6 7 8 9 10\n",
        "comments stand only before the first item",
    ),
    "repeat without a value": ("m.lpf", "6 7 8 9 10\n", "6 7 8 9 1* \n", "`1*` leaves values out"),
    "format without a number": (
        "m.lpf",
        "INTERNAL 1 (FREE) -1\n",
        "INTERNAL 1 (5A8) -1\n",
        "the format (5A8) isn't of numbers in columns",
    ),
    "file ends early": ("m.lpf", "CONSTANT 0.4\nCONSTANT 0.00002\n", "CONSTANT 0.4\n", "SS of layer 2 (after HK VKA)"),
    "values left out by a slash": ("m.lpf", "6 7 8 9 10\n", "6 7 8 9 /\n", "`/` leaves values out"),
    "row too short": ("m.lpf", "10 9 8 7 6\n", "10 9 8 7\n", "CONSTANT begins the next array, so this one (HK of"),
    "free lists without the word": ("m.bas", "FREE\n", "# FREE\nSTOPERROR 1.0\n", "write FREE into this line"),
    "name with a blank": ("m.nam", "WEL 20 m.wel", "WEL 20 my wells.wel", "a blank ends a name"),
    "minus of a word processor": ("m.wel", "-50", "\u221250", "a minus sign or a dash of a word processor"),
    "byte 0": ("m.wel", "2 2 3 -50", "2 2 \0 3 -50", "it has a byte 0"),
    "lines of old macintoshes": ("m.wel", "1 53\n1 0\n2 2 3 -50\n-1 0\n", "1 53\r1 0\r2 2 3 -50\r-1 0\r", "CR alone"),
    "as thick as the head": (
        "m.lpf",
        "53 -1E+30 0\n0 0\n",
        "53 -1E+30 0 THICKSTRT\n-1 0\n",
        "THICKSTRT with SS",
    ),
}
TAKEN = {
    "no parameter": ("m.wel", "1 53\n1 0\n", "PARAMETER 0 0\n1 53\n1 0\n", "PARAMETER 0 dropped"),
    "ramp of wells": ("m.wel", "1 53\n1 0\n", "1 53\nSPECIFY 0.05 55\n1 0\n", "SPECIFY dropped"),
    "blank of a word processor": ("m.wel", "2 2 3 -50", "2 2 3\u00a0-50", "(byte A0) written as a blank"),
    "output of modflow 2000": ("m.nam", "OC 14", "DATAGLO(BINARY) 60 m.cbb\nOC 14", "dropped"),
}


def deck(folder, file, old, new):
    folder.mkdir(exist_ok=True)
    for name, text in PLAIN.items():
        if name == file:
            assert old in text
            text = text.replace(old, new, 1)
        (folder / name).write_text(text)
    return folder / "m.nam"


def end_of(nam):
    done = heads(["run", nam.name], nam.parent)
    (nam.parent / "out").write_text(done.stdout)
    return done


@pytest.mark.program
@pytest.mark.parametrize("name", REFUSED)
def test_what_the_program_refuses_is_not_inside(name, tmp_path, tool):
    *change, part = REFUSED[name]
    nam = deck(tmp_path / "deck", *change)
    assert end_of(nam).returncode == 2
    status, out, err = tool("inside", nam)
    assert status == 1 and out.startswith("NOT INSIDE") and part in out, out + err
    status, out, err = tool("plain", nam, tmp_path / "plain")
    assert status in (1, 2) and "nothing but layout" not in out
    assert (
        status == 2
        or end_of(tmp_path / "plain" / "m.nam").returncode == 2
        and "REFUSED ALL THE SAME" in (tmp_path / "plain" / "plain.txt").read_text()
    )


@pytest.mark.program
@pytest.mark.parametrize("name", TAKEN)
def test_what_changes_nothing_is_dropped(name, tmp_path, tool):
    *change, part = TAKEN[name]
    nam = deck(tmp_path / "deck", *change)
    status, out, err = tool("plain", nam, tmp_path / "plain")
    assert status == 0 and part in out, out + err
    assert end_of(tmp_path / "plain" / "m.nam").stdout == end_of(deck(tmp_path / "base", "m.nam", "", "")).stdout


@pytest.mark.program
def test_a_blank_line_of_counts_is_written_as_modflow_reads_it(tmp_path, tool):
    """MODFLOW reads 0 entries for period 1, and the well in period 2; `heads` takes the next line, the well in both."""
    nam = deck(tmp_path / "deck", "m.wel", "1 53\n1 0\n2 2 3 -50\n-1 0\n", "1 53\n\n1 0\n2 2 3 -50\n-1 0\n")
    status, out, err = tool("inside", nam)
    assert status == 0 and out.startswith("INSIDE AFTER") and "written as `0 0`" in out, out
    status, out, err = tool("run", nam)
    assert status == 0 and "CAREFUL: m.wel, line 2: a blank line where ITMP of period 1 is due" in err, err
    assert tool("plain", nam, tmp_path / "plain")[0] == 0
    wanted = deck(tmp_path / "wanted", "m.wel", "1 53\n1 0\n2 2 3 -50\n-1 0\n", "1 53\n0 0\n1 0\n2 2 3 -50\n")
    assert end_of(tmp_path / "plain" / "m.nam").stdout == end_of(wanted).stdout != end_of(nam).stdout


@pytest.mark.program
@pytest.mark.parametrize(
    "change, part",
    [
        (("m.chd", "2 1 5 20 21\n", "1 3 4 20 21\n"), "m.chd, line 4: CHD in a cell without flow"),
        (("m.ghb", "2 4 1 18 5\n", "2 4 1 18,5 5,0\n"), "a decimal comma?"),
        (("m.lpf", "6 7 8 9 10\n", "6 7,,8 9 10\n"), "a value is left out"),
        (("m.wel", "1 53\n1 0\n", "0 53\n1 0\n"), "1 entry where the file's maximum is 0"),
        (("m.wel", "2 2 3 -50\n", " " * 196 + "2 2 3 -50\n"), "MODFLOW-2005 cuts the line at 200 letters"),
        (("m.wel", "2 2 3 -50\n-1 0\n", "\n2 2 3 -50\n-1 0\n"), "a blank line in a list"),
        (("m.lpf", HK, HK_TABBED), "a tab in columns of fixed width"),
    ],
)
def test_a_run_says_where_modflow_reads_otherwise(change, part, tmp_path, tool):
    nam = deck(tmp_path / "deck", *change)
    status, out, err = tool("run", nam)
    assert f"CAREFUL: {change[0]}" in err and part in err, err
    assert status == heads(["run", nam.name], nam.parent).returncode


@pytest.mark.program
def test_a_plain_deck_runs_without_a_warning(tmp_path, tool):
    nam = spelled.write(tmp_path, "as it is")
    dis = nam.with_name("m.dis")
    full = dis.read_text().replace("CONSTANT 30\nCONSTANT 15\nCONSTANT 0", "CONSTANT 10\nCONSTANT -5\nCONSTANT -20")
    dis.write_text(full)
    status, out, err = tool("run", nam)
    assert status == 0 and "CAREFUL" not in err


@pytest.mark.program
@pytest.mark.parametrize(
    "change, part",
    [
        (("m.lpf", "6 7 8 9 10\n", "# row 2\n6 7 8 9 10\n"), "Comments stand only before the first item"),
        (("m.wel", "1 53\n1 0\n", "1 53\nSPECIFY 0.05 55\n1 0\n"), "acts in convertible layers alone"),
        (("m.dis", "10 3 1.5 TR", "10 3.0 1.5 TR"), "`3.0` is a count"),
        (("m.bas", IBOUND_ROW, "-1. 1 1 0 1\n"), "write `-1.` without a point"),
        (
            ("m.chd", "0 0\n1 0\n2 1 5 20 21\n", "0 0\n2 0\n2 1 5 20 21\n2 1 5 20 21\n"),
            "-> A cell stands in a list once",
        ),
        (
            ("m.lpf", "CONSTANT 0.4\nCONSTANT 0.00002\n", "CONSTANT 0.4\n"),
            "This was due there: SS of layer 2 (after HK VKA)",
        ),
        (("m.lpf", "6 7 8 9 10\n", "6. 7. 8. 9. /\n"), "`/` ends the array"),
        (("m.lpf", "6 7 8 9 10\n", "6. 7. 8. 9. 1*\n"), "`1*` repeats no value"),
        (("m.drn", "1 4 5 19 10\n", "1 4 5 19\n"), "Elevation, Cond, and this line has 4 of the 5 numbers"),
        (("m.wel", "1 53\n1 0\n", "1 53\n1. 0\n"), "`1.` is a count or a cell's number"),
        (("m.wel", "2 2 3 -50\n", "2. 2 3 -50\n"), "`2.` is a count or a cell's number"),
        (("m.wel", "2 2 3 -50\n", "2 2 3 \u221250\n"), "a minus sign or a dash of a word processor"),
        (("m.nam", "WEL 20 m.wel", "WEL 20 my wells.wel"), "goes on after this word"),
        (("m.nam", "OC 14", "DATAGLO(BINARY) 60 m.cbb\nOC 14"), "only prints or compares"),
    ],
)
def test_explain_fits_the_line(change, part, tmp_path, tool):
    nam = deck(tmp_path / "deck", *change)
    end_of(nam)
    status, out, err = tool("explain", nam.parent / "out")
    assert status == 2 and part in out, out


def test_explain_tells_each_model_of_a_batch(tmp_path, tool):
    (tmp_path / "out").write_text(
        "MODEL a.nam\nHEADS 2 DIGITS 12 UNIT 2\nEND\nMODEL b.nam\nREFUSED 1 MissingFile x 0\nEND\n"
    )
    status, out, err = tool("explain", tmp_path / "out")
    assert status == 2 and "a.nam: The run ended well" in out and "b.nam: MissingFile in x" in out, out


def test_a_full_disk_gets_a_sentence(tmp_path):
    import subprocess
    import sys

    from conftest import TOOLS, TOP

    words = [sys.executable, "-m", "heads_tools", "model", TOP / "examples" / "three_cells" / "a.nam"]
    with open("/dev/full", "w") as full:
        done = subprocess.run(words, stdout=full, stderr=subprocess.PIPE, text=True, env={"PYTHONPATH": str(TOOLS)})
    assert done.returncode == 2 and done.stderr == "heads-tools: standard output: No space left on device\n"


@pytest.mark.program
@pytest.mark.parametrize(
    "words, part",
    [
        (["--foo"], "`--foo` isn't known"),
        (["--digits", "99"], "`--digits 99`: a whole number from 0 to 18 is due"),
        (["--digits", "09"], "`--digits 09`"),
        (["--rounds"], "`--rounds` lacks its value"),
        (["--watch", "3", "--quick"], "`--watch` and `--quick` don't go together"),
        (["--digits", "5", "--digits=5"], "`--digits` stands twice"),
    ],
)
def test_the_word_that_is_not_taken_is_named(words, part, tmp_path, tool):
    status, out, err = tool("run", deck(tmp_path / "deck", "m.wel", "-50", "-50"), *words)
    assert status == 1 and part in out, out + err


def test_words_that_are_taken_have_no_fault():
    from heads_tools.program.option_faults import option_faults

    words = "--digits 9 --workers 4 --rounds 4000000000 --zones m.zon --watch 1000 --to b.nam --wide".split()
    assert option_faults(words) == [] and option_faults(["--quick", "--digits=0"]) == []


BROKEN = {
    "nan": (lambda text: text.replace("HEAD 1 2 3 ", "HEAD 1 2 3 nan ", 1), "`nan` is no number"),
    "an empty line": (lambda text: text.replace("\nIN", "\n\nIN", 1), "it is empty, and a listing has no empty lines"),
    "a word too many": (lambda text: text.replace("HEAD 1 2 3 ", "HEAD 1 2 3 3 ", 1), "the form of a line HEAD"),
    "another word": (lambda text: text.replace("OUT ", "AUS ", 1), "no line of a step begins with `AUS`"),
}


@pytest.mark.program
@pytest.mark.parametrize("name", BROKEN)
def test_what_is_wrong_in_a_listing_is_named_with_its_line(name, tmp_path, tool):
    nam = deck(tmp_path / "deck", "m.wel", "-50", "-50")
    change, part = BROKEN[name]
    text = end_of(nam).stdout
    (tmp_path / "m.heads").write_bytes(change(text).encode())
    status, out, err = tool("look", tmp_path / "m.heads", tmp_path / "look", "--name", nam)
    assert status == 2 and part in err and not (tmp_path / "look").exists(), err
    lines = zip(change(text).split("\n"), text.split("\n"))
    first = next(n for n, (now, was) in enumerate(lines, 1) if now != was)
    assert f"m.heads, line {first}: " in err


@pytest.mark.program
def test_a_listing_that_was_sent_by_mail_is_named(tmp_path, tool):
    nam = deck(tmp_path / "deck", "m.wel", "-50", "-50")
    (tmp_path / "m.heads").write_bytes(end_of(nam).stdout.replace("\n", "\r\n").encode())
    status, out, err = tool("look", tmp_path / "m.heads", tmp_path / "look", "--name", nam)
    assert status == 0 and "m.heads has lines that end with CR LF" in err and "heads check: CERTIFIED" in out


def test_a_name_with_a_blank_in_a_batchs_list_is_told(tmp_path, tool):
    (tmp_path / "plan one.nam").write_text("\n")
    (tmp_path / "list.txt").write_text("plan one.nam\n")
    status, out, err = tool("batch", tmp_path / "list.txt")
    assert status == 2 and "line 1: there is no file plan. There is `plan one.nam`, but a blank ends a name" in err


@pytest.mark.program
def test_a_home_that_cannot_be_written_is_not_told(tmp_path):
    import os
    import subprocess
    import sys

    from conftest import TOOLS

    nam = deck(tmp_path / "deck", "m.wel", "-50", "-50")
    (tmp_path / "m.heads").write_text(end_of(nam).stdout)
    (tmp_path / "home").write_text("no folder")
    env = {k: v for k, v in os.environ.items() if k not in ("MPLCONFIGDIR", "XDG_CONFIG_HOME", "XDG_CACHE_HOME")}
    done = subprocess.run(
        [sys.executable, "-m", "heads_tools", "look", "m.heads", "look"],
        cwd=tmp_path,
        env=env | {"PYTHONPATH": str(TOOLS), "HOME": str(tmp_path / "home")},
        capture_output=True,
        text=True,
    )
    assert done.returncode == 0 and done.stderr == "", done.stderr
