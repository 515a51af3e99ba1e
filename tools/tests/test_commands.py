"""Each command on the examples, and what it says to bad input."""
import csv
import re
from pathlib import Path

import pytest
from conftest import heads, TOOLS, TOP

EXAMPLES = ["three_cells", "drained_field", "tide", "river_valley"]


@pytest.fixture
def ran(example, tool):
    def run(name):
        nam = example(name)
        status, out, err = tool("run", nam)
        assert status == 0 and "ended well" in out, out + err
        return nam, nam.with_suffix(".heads")

    return run


@pytest.mark.program
@pytest.mark.parametrize("name", EXAMPLES)
def test_run_writes_what_the_program_writes(name, ran):
    nam, listing = ran(name)
    assert listing.read_text() == heads(["run", nam.name], nam.parent).stdout


@pytest.mark.program
@pytest.mark.parametrize("name", EXAMPLES)
def test_look_draws_and_tables_hold_the_listing(name, ran, tool, tmp_path):
    nam, listing = ran(name)
    status, out, err = tool("look", listing, tmp_path / "look", "--name", nam)
    assert status == 0, err
    page = (tmp_path / "look" / "index.html").read_text()
    for picture in re.findall(r'src="([^"]+)"', page):
        assert (tmp_path / "look" / picture).read_bytes().startswith(b"\x89PNG")
    assert not list((tmp_path / "look").glob("*.svg"))
    lines = [l.split()[1:] for l in listing.read_text().split("\n") if l.startswith("HEAD ")]
    rows = list(csv.DictReader((tmp_path / "look" / "heads.csv").open()))
    assert [[r["layer"], r["row"], r["col"], r["lower"], r["upper"]] for r in rows] == lines
    terms = [l.split() for l in listing.read_text().split("\n") if l.startswith("IN ")]
    budget = [r for r in csv.DictReader((tmp_path / "look" / "budget.csv").open()) if r["term"] != "TOTAL"]
    assert [(r["in_lower"], r["in_upper"]) for r in budget] == [(t[1], t[2]) for t in terms]


@pytest.mark.program
@pytest.mark.parametrize("name", EXAMPLES)
def test_certify_from_the_middle_heads(name, ran, tool, tmp_path):
    nam, listing = ran(name)
    assert tool("hds", listing, tmp_path / "m.hds", "--name", nam)[0] == 0
    status, out, err = tool("certify", nam, tmp_path / "m.hds")
    assert status == 0 and out.startswith("CERTIFIED") and "beside `heads run`" in out, out + err
    status, out, err = tool("compare", listing, tmp_path / "m.hds")
    assert status == 0 and "0 of" in out.split("\n")[1]


@pytest.mark.program
def test_certify_from_poor_heads_of_any_solver(example, tool, tmp_path):
    (tmp_path / "given.csv").write_text("layer,row,col,head\n1,1,1,0\n")
    status, out, err = tool("certify", example("river_valley"), tmp_path / "given.csv", "--digits", "9")
    assert status == 0 and "off by at least 15.5" in out, out + err


@pytest.mark.program
def test_compare_says_how_far_given_heads_are_off(ran, tool, tmp_path):
    nam, listing = ran("three_cells")
    (tmp_path / "given.csv").write_text("layer,row,col,head\n1,1,2,15.25\n")
    status, out, err = tool("compare", listing, tmp_path / "given.csv")
    assert (
        status == 0 and "at least 0.249" in out and "at most 0.251" in out and "1 of the listing's 3 cells" in out
    ), out
    (tmp_path / "wide.csv").write_text("layer,row,col,head\n9,9,9,3\n")
    assert tool("compare", listing, tmp_path / "wide.csv")[0] == 2


@pytest.mark.program
def test_runs_again_with_the_digits_that_fit(example, tool):
    nam = example("river_valley")
    riv = nam.parent / "m.riv"
    riv.write_text(riv.read_text().replace("11.9 200", "11.9 2000000000"))
    status, out, err = tool("run", nam)
    assert status == 0 and "once more with --digits 9" in out and "--digits 6" in out, out


@pytest.mark.program
@pytest.mark.parametrize(
    "name, status, part", [("no_answer", 3, "Nothing holds the heads"), ("refused", 2, "HOB only prints or compares")]
)
def test_run_explains_how_it_ended(name, status, part, example, tool):
    got, out, err = tool("run", example(name))
    assert got == status and part in out and "END" not in out


@pytest.mark.program
def test_batch_collects_the_ends(example, tool, tmp_path):
    for name in ("three_cells", "no_answer", "refused"):
        example(name)
    (tmp_path / "list.txt").write_text("# three\nthree_cells/a.nam\nno_answer/m.nam\nrefused/m.nam\n")
    status, out, err = tool("batch", tmp_path / "list.txt")
    assert status == 3 and "three_cells/a.nam: END" in out, out + err
    rows = list(csv.DictReader((tmp_path / "list.ends.csv").open()))
    assert [r["status"] for r in rows] == ["0", "3", "2"]
    status, out, err = tool("batch", tmp_path / "list.txt", "--slurm", "--write-only")
    assert status == 0 and "#SBATCH --array=1-3" in (tmp_path / "list.slurm").read_text()
    status, out, err = tool("batch", tmp_path / "list.txt", "--parallel", "--write-only")
    assert status == 0 and "parallel --joblog" in (tmp_path / "list.parallel.sh").read_text()


@pytest.mark.program
@pytest.mark.parametrize("held, has_batch", [(3 * (160 + 40) + 600 * (160 + 40), True), (60300, False)])
def test_a_batch_that_would_take_half_the_memory_is_run_model_by_model(
    held, has_batch, example, tool, tmp_path, monkeypatch
):
    """The larger of the two folders has a model of 600 cells and one step, the other one of 3 cells."""
    import heads_tools.program.batch

    called = []
    by_program = heads_tools.program.batch.run_by_program
    monkeypatch.setattr(heads_tools.program.batch, "memory", lambda: 2 * held)
    counted = lambda *words: called.append(1) or by_program(*words)
    monkeypatch.setattr(heads_tools.program.batch, "run_by_program", counted)
    for name in ("three_cells", "river_valley"):
        example(name)
    (tmp_path / "list.txt").write_text("three_cells/a.nam\nriver_valley/m.nam\n")
    status, out, err = tool("batch", tmp_path / "list.txt")
    assert status == 0 and out.count(": END, 1 step") == 2 and bool(called) == has_batch
    assert ("would hold 0.00012 GB" in err) == (not has_batch)


@pytest.mark.program
def test_a_listing_from_before_is_not_taken_for_a_run(ran, tool, tmp_path, monkeypatch):
    nam, listing = ran("three_cells")
    sbatch = tmp_path / "bin" / "sbatch"
    sbatch.parent.mkdir()
    sbatch.write_text("#!/bin/sh\necho 'no node has 4 processors' >&2\nexit 1\n")
    sbatch.chmod(0o755)
    monkeypatch.setenv("PATH", str(sbatch.parent), prepend=":")
    (tmp_path / "list.txt").write_text("three_cells/a.nam\n")
    status, out, err = tool("batch", tmp_path / "list.txt", "--slurm")
    assert status == 6 and "a.nam: END" not in out and "no node has 4 processors" in err, out + err
    assert listing.is_file()


def test_a_batch_of_the_program_is_parted_by_model(tmp_path):
    from heads_tools.program.batch import Job, split_batch

    jobs = [Job(n, tmp_path / n) for n in ("a.nam", "b.nam", "c.nam")]
    split_batch(
        (
            "MODEL a.nam\nHEADS 2 DIGITS 12 UNIT 2\nEND\nMODEL b.nam\nREFUSED 1 MissingFile x 0\nMODEL c.nam\nHEADS 2"
            " DIGITS 12 UNIT 2\nEND\nEND\n"
        ).splitlines(keepends=True),
        jobs,
    )
    assert [j.listing.read_text() for j in jobs] == [
        "HEADS 2 DIGITS 12 UNIT 2\nEND\n",
        "REFUSED 1 MissingFile x 0\n",
        "HEADS 2 DIGITS 12 UNIT 2\nEND\n",
    ]


def test_model_tells_what_was_read(example, tool):
    status, out, err = tool("model", example("three_aquifers"))
    assert (
        status == 0
        and "3 layers, 15 rows, 15 columns: 675 cells" in out
        and "VKCB 0.001" in out
        and "WEL: [1: 1 entry;" in out
    )


@pytest.mark.parametrize(
    "words",
    [
        ["look", "nothing.heads", "out"],
        ["run", "nothing.nam"],
        ["inside", "."],
        ["compare", "nothing", "nothing"],
        ["explain", "nothing"],
        ["plain", "nothing.nam", "out"],
        ["hds", "nothing", "x.hds"],
        ["model", "nothing.nam"],
        ["batch", "nothing.txt"],
        ["certify", "nothing.nam", "x"],
        ["exhibit", "nothing.nam", "out"],
        ["grow"],
    ],
)
def test_bad_input_gets_a_sentence(words, tool, tmp_path, monkeypatch):
    monkeypatch.chdir(tmp_path)
    status, out, err = tool(*words)
    assert status == 2 and "Traceback" not in err and err.strip() and not list(tmp_path.iterdir())


def test_look_refuses_another_model_and_a_cell_without_flow(tmp_path, tool, example):
    (tmp_path / "m.heads").write_text("HEADS 2 DIGITS 12 UNIT 2\nSTEP 1 1\nHEAD 9 1 1 1.000000000 1.000000000\nEND\n")
    status, out, err = tool("look", tmp_path / "m.heads", tmp_path / "look", "--name", example("three_cells"))
    assert status == 2 and "another model" in err
    status, out, err = tool("look", tmp_path / "m.heads", tmp_path / "look", "--cell", "1,1,1")
    assert status == 2 and "isn't in the listing" in err and not (tmp_path / "look").exists()


@pytest.mark.parametrize("code", range(1, 28))
def test_explain_has_a_sentence_for_each_code(code, tmp_path, tool):
    word = "REFUSED 9 Word m.dis 3" if code <= 20 else "NOBOUND 9 Word 1 2 1 1 1"
    (tmp_path / "out").write_text(word.replace("9", str(code), 1) + "\n")
    status, out, err = tool("explain", tmp_path / "out")
    assert status == (2 if code <= 20 else 3) and len(out) > 60 and "  -> " in out


@pytest.mark.parametrize(
    "last, status",
    [
        ("END", 0),
        ("CERTIFIED", 0),
        ("USAGE: heads run NAME", 1),
        ("UNFINISHED 1 2", 4),
        ("READFAULT", 5),
        ("", 6),
        ("HEAD 1 1 1 0.0", 6),
        ("MEMORY", 7),
        ("NOT CERTIFIED 1 1 1 1 2 LOW", 8),
        ("NOT CERTIFIED 1 1 IN RIVER LEAKAGE", 8),
        ("NOBOUND 23 FlowTooLarge 1 1 ZONE 1 2", 3),
    ],
)
def test_explain_has_a_sentence_for_each_status(last, status, tmp_path, tool):
    (tmp_path / "out").write_text(last + "\n" if last else "")
    got, out, err = tool("explain", tmp_path / "out")
    assert got == status and len(out) > 20


@pytest.mark.program
def test_a_model_without_flow_has_nothing_to_draw(example, tool, tmp_path):
    nam = example("three_cells")
    bas = nam.with_suffix(".bas")
    bas.write_text(re.sub("(?m)^-1 1 -1$", "0 0 0", bas.read_text()))
    status, out, err = tool("run", nam)
    assert status == 0 and "1 step without a cell with flow" in out, out + err
    status, out, err = tool("look", nam.with_suffix(".heads"), tmp_path / "look")
    assert status == 2 and "no cell with flow" in err and not (tmp_path / "look").exists()
    (tmp_path / "list.txt").write_text("three_cells/a.nam\n")
    assert tool("batch", tmp_path / "list.txt")[0] == 0


def test_zone_flows_are_shown(tmp_path, tool):
    text = (Path(__file__).parent / "test_listing.py").read_text().split('"""')[3].lstrip("\n")
    (tmp_path / "m.heads").write_text(text)
    status, out, err = tool("look", tmp_path / "m.heads", tmp_path / "look")
    assert (
        status == 0
        and (tmp_path / "look" / "zones.csv").read_text().split("\n")[1] == "1,1,1,2,-0.250000000000,0.000000000001"
    ), err


@pytest.mark.program
def test_version_names_the_program(tool):
    status, out, err = tool("version")
    assert status in (0, 1) and "sha256" in out


def test_the_script_runs_from_anywhere(tmp_path):
    import subprocess

    done = subprocess.run([TOOLS / "heads-tools", "--help"], cwd=tmp_path, capture_output=True, text=True)
    assert done.returncode == 0 and "certify" in done.stdout


def test_a_slow_step_shows_its_phase_and_how_many_cells_move(capfd, monkeypatch):
    import io

    from heads_tools.program.follow import Progress

    progress = Progress("m.nam", 3)
    views = (
        b"WATCH 1 2\nHEAD 1 1 2 0.0 9.0\nHEAD 1 1 3 0.0 9.0\nWATCH 1 2\nHEAD 1 1 2 0.0 9.0\nHEAD 1 1 3 1.0 9.0\nanother"
        b" line\n"
    )
    progress.step()
    progress.read(io.BytesIO(views))
    progress.tell_step()
    err = capfd.readouterr().err
    assert (
        "another line" in err and "step 2 of 3 (period 1 step 2): phase 2, 1 of 2 cells still move, 0 s so far" in err
    ), err


@pytest.mark.program
def test_a_run_that_is_followed_writes_the_same_listing(example):
    from heads_tools.program.program import run

    nam = example("tide")
    ended = run(nam, [], nam.with_suffix(".heads"), 48, is_followed=True)
    assert ended.status == 0 and nam.with_suffix(".heads").read_text() == heads(["run", nam.name], nam.parent).stdout


def test_each_command_stands_in_the_man_page_and_in_the_readme():
    from heads_tools.cli import parser

    commands = next(a for a in parser()._actions if hasattr(a, "choices") and a.choices).choices
    page, readme = (TOP / "docs" / "heads-tools.1").read_text(), (TOOLS / "README.md").read_text()
    for name in commands:
        assert (
            f"heads\\-tools {name} " in page.replace(f'"heads-tools {name}"', f"heads\\-tools {name} ")
            and f"`{name}" in readme
        ), name


def test_each_help_says_each_word_and_ends_with_a_call_that_is_taken(tool):
    import re

    from heads_tools.cli import parser
    from heads_tools.commands import HELP

    commands = next(a for a in parser()._actions if hasattr(a, "choices") and a.choices).choices
    assert not [(name, word.dest) for name, sub in commands.items() for word in sub._actions if not word.help]
    for name in HELP:
        status, out, _ = tool(name, "--help")
        example = re.search(r"\nExample: heads-tools (.*)$", out.rstrip(), re.S)
        assert status == 0 and example and parser().parse_args(example[1].split()).command == name


def test_the_version_is_told(tool):
    status, out, err = tool("--version")
    assert status == 0 and out == "heads-tools 0.1.0\n" and "version: 0.1.0" in (TOP / "CITATION.cff").read_text()


def test_an_unknown_word_shows_the_words_of_its_own_command(tool):
    status, out, err = tool("observe", "a", "b", "--name", "m.nam", "--csv", "c")
    assert status == 2 and "usage: heads-tools observe" in err and "unknown words: --csv c" in err, out + err
