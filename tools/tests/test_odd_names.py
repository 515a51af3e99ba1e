"""Folders, listings, tables and name files whose names have blanks and umlauts, as on many a Windows machine."""
import pytest
from conftest import TOP, heads

COMMANDS = {
    "run": ["run", "a.nam", "--out", "ein Lauf.heads", "--quiet"],
    "check": ["check", "a.nam", "für alle.heads"],
    "inside": ["inside", "a.nam"],
    "plain": ["plain", "a.nam", "schön geschrieben"],
    "template": ["template", "a.nam", "für PEST"],
    "compare": ["compare", "für alle.heads", "Köpfe.csv", "--name", "a.nam", "--csv", "ein Vergleich.csv"],
    "certify": ["certify", "a.nam", "Köpfe.csv", "--zones", "die Zonen.zon", "--out", "mit Zonen.heads"],
    "hds": ["hds", "für alle.heads", "Köpfe neu.hds", "--name", "a.nam"],
    "export": ["export", "für alle.heads", "für alle", "--name", "a.nam", "--as", "csv"],
    "observe": ["observe", "für alle.heads", "die Punkte.csv", "--name", "a.nam", "--out", "am Pegel.csv"],
    "zonebudget": ["zonebudget", "für alle.heads", "die Zonen.zon", "--name", "a.nam", "--out", "je Zone.csv"],
    "explain": ["explain", "für alle.heads"],
}


@pytest.fixture
def here(tmp_path, monkeypatch):
    """A model in a folder whose name has a blank and an umlaut, with files named so."""
    folder = tmp_path / "Modell Übung"
    folder.mkdir()
    for file in (TOP / "examples" / "three_cells").glob("a.*"):
        (folder / file.name).write_bytes(file.read_bytes())
    (folder / "die Zonen.zon").write_text("INTERNAL 1 (FREE) 0\n1 1 2\n")
    text = heads(["run", "a.nam"], folder).stdout
    (folder / "für alle.heads").write_text(text)
    rows = [line.split() for line in text.splitlines() if line.startswith("HEAD ")]
    (folder / "Köpfe.csv").write_text("".join(",".join(row[1:5]) + "\n" for row in rows))
    (folder / "die Punkte.csv").write_text("name,x,y,layer,time,measured\nam Pegel,1.5,0.5,1,1,3\n")
    monkeypatch.chdir(folder)
    return folder


@pytest.mark.program
@pytest.mark.parametrize("words", COMMANDS.values(), ids=COMMANDS)
def test_each_command_takes_such_folders_and_files(here, tool, words):
    status, _, err = tool(*words)
    assert status == 0 and "heads-tools:" not in err


@pytest.mark.program
def test_a_name_file_that_the_program_cannot_be_given_is_written_under_another_name(here, tool):
    (here / "a.nam").rename(here / "Mein Tälchen.nam")
    status, out, _ = tool("run", "Mein Tälchen.nam", "--quiet")
    assert status == 2 and "BadName in the command's words" in out and "`heads-tools plain` does" in out
    status, out, _ = tool("inside", "Mein Tälchen.nam")
    assert status == 0 and "INSIDE AFTER" in out and "the name file is written as Mein_T_lchen.nam" in out
    assert tool("plain", "Mein Tälchen.nam", "plain")[0] == 0
    assert heads(["run", "Mein_T_lchen.nam"], here / "plain").stdout == (here / "für alle.heads").read_text()
