"""Files of a deck, what a command reads, and results of other programs are never written over."""
import shutil

import pytest
from conftest import TOP

import heads_tools
from heads_tools import Problem
from heads_tools.common.kept_files import demand_free, is_ours

pytestmark = pytest.mark.program
FOREIGN = "nothing shows that heads-tools made it. Another name, or --force"


@pytest.fixture
def valley(tmp_path):
    """A model whose name file names MODFLOW's own outputs, too, and whose LPF opens a file."""
    folder = tmp_path / "valley"
    shutil.copytree(TOP / "examples" / "river_valley", folder, ignore=shutil.ignore_patterns("*.heads*", "look"))
    nam = folder / "m.nam"
    nam.write_text(nam.read_text() + "LIST 2 m.list\nDATA(BINARY) 61 run.hds REPLACE\n")
    lpf = (folder / "m.lpf").read_text()
    assert "CONSTANT 25\n" in lpf or "CONSTANT" in lpf
    line = next(l for l in lpf.split("\n") if l.startswith("CONSTANT"))
    (folder / "hk.txt").write_text((line.split()[1] + "\n") * 600)
    (folder / "m.lpf").write_text(lpf.replace(line, "OPEN/CLOSE hk.txt 1 (FREE) -1", 1))
    (folder / "points.txt").write_text("name,x,y\na,500,500\n")
    heads_tools.run(nam)
    heads_tools.hds(folder / "m.heads", folder / "middle.hds")
    return folder


def contents(folder):
    return {str(f.relative_to(folder)): f.read_bytes() for f in sorted(folder.rglob("*")) if f.is_file()}


@pytest.mark.parametrize(
    "words, file, why",
    [
        (["run", "m.nam", "--out", "m.rch"], "m.rch", "m.nam names it (RCH)"),
        (["run", "m.nam", "--out", "m.nam"], "m.nam", "the command reads it"),
        (["run", "m.nam", "--out", "m.zon", "--zones", "m.zon"], "m.zon", "the command reads it"),
        (["run", "m.nam", "--out", "hk.txt"], "hk.txt", "an array of m.nam is read from it"),
        (["certify", "m.nam", "middle.hds", "--out", "m.riv"], "m.riv", "m.nam names it (RIV)"),
        (["compare", "m.heads", "middle.hds", "--csv", "m.wel"], "m.wel", "m.nam names it (WEL)"),
        (["compare", "m.heads", "middle.hds", "--csv", "middle.hds"], "middle.hds", "the command reads it"),
        (["hds", "m.heads", "m.dis"], "m.dis", "m.nam names it (DIS)"),
        (["hds", "m.heads", "m.heads"], "m.heads", "the command reads it"),
        (["observe", "m.heads", "points.txt", "--name", "m.nam", "--out", "points.txt"], "points.txt", "reads it"),
        (["observe", "m.heads", "points.txt", "--name", "m.nam", "--out", "m.bas"], "m.bas", "m.nam names it (BAS6)"),
    ],
)
@pytest.mark.parametrize("force", [[], ["--force"]])
def test_a_file_that_is_read_is_never_written_over(words, file, why, force, valley, tool, monkeypatch):
    monkeypatch.chdir(valley)
    before = contents(valley)
    status, out, err = tool(*words, *force)
    last = err.strip().split("\n")[-1]
    assert status == 2 and f"{file} isn't written over: " in last and why in last, out + err
    assert contents(valley) == before


def test_the_deck_of_a_named_model_is_kept_wherever_it_lies(valley, tool, tmp_path, monkeypatch):
    away = tmp_path / "away"
    away.mkdir()
    shutil.copy(valley / "m.heads", away)
    (valley / "deck").mkdir()
    nam = valley / "m.nam"
    nam.write_text(nam.read_text().replace("m.wel", "deck/m.wel"))
    (valley / "m.wel").rename(valley / "deck" / "m.wel")
    monkeypatch.chdir(away)
    status, out, err = tool("hds", "m.heads", valley / "deck" / "m.wel", "--name", nam, "--force")
    assert status == 2 and "m.nam names it (WEL)" in err


def test_a_result_of_another_program_is_kept_unless_forced(valley, tool, monkeypatch):
    monkeypatch.chdir(valley)
    (valley / "other.hds").write_bytes(b"heads of MODFLOW")
    status, out, err = tool("hds", "m.heads", "other.hds")
    assert status == 2 and f"other.hds isn't written over: {FOREIGN}" in err
    assert (valley / "other.hds").read_bytes() == b"heads of MODFLOW"
    assert tool("hds", "m.heads", "other.hds", "--force")[0] == 0
    assert (valley / "other.hds").read_bytes() == (valley / "middle.hds").read_bytes()
    assert tool("hds", "m.heads", "other.hds", "--lower")[0] == 0, "now it is our own"


def test_what_the_name_file_names_is_kept_even_when_forced(valley, tool, monkeypatch):
    monkeypatch.chdir(valley)
    (valley / "run.hds").write_bytes(b"heads of MODFLOW")
    for force in ([], ["--force"]):
        status, out, err = tool("hds", "m.heads", "run.hds", *force)
        assert status == 2 and "run.hds isn't written over: m.nam names it (DATA(BINARY))" in err
    (valley / "run.hds").unlink()
    for _ in range(2):
        assert tool("hds", "m.heads", "run.hds")[0] == 0


@pytest.mark.parametrize(
    "words, file",
    [
        (["run", "m.nam", "--out", "notes.txt"], "notes.txt"),
        (["look", "m.heads", "page"], "page/index.html"),
        (["look", "m.heads", "page"], "page/budget.csv"),
        (["drawdown", "m.heads", "m.heads", "page"], "page/drawdown.csv"),
        (["export", "m.heads", "page", "--name", "m.nam", "--as", "csv"], "page/heads.csv"),
        (["compare", "m.heads", "middle.hds", "--csv", "off.csv"], "off.csv"),
        (["plain", "m.nam", "page"], "page/m.wel"),
        (["plain", "m.nam", "page"], "page/p.nam"),
        (["between", "m.nam", "page", "--wells", "0..1"], "page/from.nam"),
    ],
)
def test_no_command_writes_over_what_somebody_else_wrote(words, file, valley, tool, monkeypatch):
    monkeypatch.chdir(valley)
    (valley / file).parent.mkdir(exist_ok=True)
    (valley / file).write_text("<!doctype html>\nmy own text, period,step\n")
    if words[0] == "plain" and file.endswith("wel"):
        (valley / "page" / "m.nam").write_text("WEL 14 m.wel\n")
        (valley / "m.wel").write_text((valley / "m.wel").read_text().replace("2 0", "2 0 0", 1))
        (valley / "page" / "p.wel").write_text("my own wells\n")
    before = contents(valley)
    status, out, err = tool(*words)
    assert status == 2 and "isn't written over: " in err and str(valley.name) not in err.split("isn't")[1], out + err
    assert contents(valley) == before


def test_what_heads_tools_made_is_written_anew(valley, tool, monkeypatch):
    monkeypatch.chdir(valley)
    for words in (
        ["run", "m.nam"],
        ["look", "m.heads", "page", "--svg"],
        ["drawdown", "m.heads", "m.heads", "down"],
        ["export", "m.heads", "out", "--name", "m.nam"],
        ["compare", "m.heads", "middle.hds", "--csv", "off.csv"],
        ["hds", "m.heads", "middle.hds"],
        ["plain", "m.nam", "plain"],
        ["between", "m.nam", "two", "--wells", "0..1"],
        ["observe", "m.heads", "points.txt", "--name", "m.nam", "--out", "seen.csv"],
        ["certify", "m.nam", "middle.hds"],
    ):
        for _ in range(2):
            status, out, err = tool(*words)
            assert status == 0, (words, out, err)


def test_the_calls_of_python_keep_files_too(valley):
    listing = heads_tools.read_listing(valley / "m.heads")
    (valley / "other.hds").write_bytes(b"heads of MODFLOW")
    for name, why in (("m.rch", "names it"), ("other.hds", FOREIGN)):
        with pytest.raises(Problem, match=why):
            heads_tools.write_heads(valley / name, listing)
    assert heads_tools.hds(listing, valley / "other.hds", force=True).is_good


def test_a_folder_is_no_file_and_an_empty_file_may_go(tmp_path):
    (tmp_path / "empty").write_text("")
    demand_free(tmp_path / "empty")
    demand_free(tmp_path / "not there")
    with pytest.raises(Problem, match="is a folder; a file is due here"):
        demand_free(tmp_path)


def test_a_device_is_no_place_for_a_whole_file():
    with pytest.raises(Problem, match="is a device, and a file is due here"):
        demand_free("/dev/null")


def test_a_batch_by_single_runs_keeps_files_and_may_be_forced(valley, tool, monkeypatch):
    import heads_tools.program.batch

    monkeypatch.setattr(heads_tools.program.batch, "fits_memory", lambda jobs: False)
    (valley / "list.txt").write_text("m.nam\n")
    (valley / "m.heads").write_text("my own heads\n")
    status, out, err = tool("batch", valley / "list.txt")
    assert status == 2 and FOREIGN in err and (valley / "m.heads").read_text() == "my own heads\n"
    assert tool("batch", valley / "list.txt", "--force")[0] == 0
    assert (valley / "m.heads").read_text().endswith("END\n")


@pytest.mark.parametrize("name", ["certify", "compare"])
def test_a_listing_in_the_place_of_a_head_file_is_told(name, valley, tool):
    words = [valley / "m.nam"] if name == "certify" else [valley / "m.heads"]
    status, out, err = tool(name, *words, valley / "m.heads")
    assert status == 2 and "is a listing of `heads`, and a head file or a table is due" in err


@pytest.mark.parametrize("begin, is_known", [("HEADS 2 DIGITS 12 UNIT 2\n", True), ("heads of mine\n", False)])
def test_a_listing_is_known_by_its_first_line(begin, is_known, tmp_path):
    (tmp_path / "a").write_text(begin)
    assert is_ours(tmp_path / "a") == is_known


def test_the_table_that_heads_are_given_in_is_not_ours(tmp_path):
    (tmp_path / "a.csv").write_text("period,step,layer,row,col,head\n1,1,1,1,1,5.0\n")
    assert not is_ours(tmp_path / "a.csv")
