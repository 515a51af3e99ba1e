"""An exhibit stands alone: its commands run as they stand, and its sums are those of its files."""
import re
import subprocess

import pytest


def commands(folder):
    """The commands that EXHIBIT.txt prints."""
    return re.findall("^    (.+)$", (folder / "EXHIBIT.txt").read_text(), re.M)


def answers(folder):
    """Status and output of each printed command, as a reader types it in the exhibit's folder."""
    for command in commands(folder):
        done = subprocess.run(["sh", "-c", command], cwd=folder, capture_output=True, text=True)
        yield command, done.returncode, done.stdout


@pytest.mark.program
@pytest.mark.parametrize(
    "name, options, count", [("tide", [], 6), ("river_valley", ["--zones", "m.zon", "--digits", "9"], 6)]
)
def test_the_printed_commands_run_as_they_stand(name, options, count, example, tool, tmp_path):
    folder = tmp_path / "an exhibit"
    status, out, err = tool("exhibit", example(name), folder, *options)
    assert status == 0, out + err
    told = list(answers(folder))
    assert len(told) == count and all(code == 0 for _, code, _ in told), told
    said = "".join(text for *_, text in told)
    assert "CERTIFIED" in said and "HOLDS" in said and said.count("SAME") == 3 and "FAILED" not in said
    assert "The folder written has the model that `heads` read" in (folder / "EXHIBIT.txt").read_text()
    for file in "heads heads.txt recheck.py SHA256SUMS judge.html look/index.html written.txt written/p.nam".split():
        assert (folder / file).is_file()
    assert (folder / "look" / "zones_layer1.png").is_file() == ("--zones" in options)
    checks = [command for command in commands(folder) if "heads check" in command]
    assert len(checks) == 1 and ("--zones" in checks[0]) == ("--zones" in options)
    assert "weren't checked" not in (folder / "EXHIBIT.txt").read_text()


@pytest.mark.program
def test_a_changed_file_shows_in_the_sums(example, tool, tmp_path):
    tool("exhibit", example("three_cells"), tmp_path / "exhibit")
    sums = (tmp_path / "exhibit" / "SHA256SUMS").read_text()
    assert "  EXHIBIT.txt\n" in sums and "  deck/a.nam\n" in sums
    (tmp_path / "exhibit" / "deck" / "a.dis").write_text("another model\n")
    done = subprocess.run(["sha256sum", "-c", "SHA256SUMS"], cwd=tmp_path / "exhibit", capture_output=True, text=True)
    assert done.returncode == 1 and "deck/a.dis: FAILED" in done.stdout


@pytest.mark.program
def test_the_judges_page_has_the_sentence_that_may_be_said_and_the_one_that_may_not(example, tool, tmp_path):
    tool("exhibit", example("three_cells"), tmp_path / "exhibit")
    for file in ("judge.html", "EXHIBIT.txt"):
        text = (tmp_path / "exhibit" / file).read_text()
        may, may_not = text.index("Each exact solution of this model"), text.index(
            "The head in the aquifer lies between"
        )
        assert text.index("What may be said") < may < text.index("What may not be said") < may_not


@pytest.mark.program
def test_nothing_may_be_said_of_a_run_that_did_not_end_well(example, tool, tmp_path):
    status, out, err = tool("exhibit", example("no_answer"), tmp_path / "exhibit")
    assert status == 3 and "Nothing may be said" in out and "Each exact solution" not in out
    assert "Each exact solution of this" not in (tmp_path / "exhibit" / "judge.html").read_text()


@pytest.mark.program
def test_a_failed_exhibit_leaves_nothing(example, tool, tmp_path, monkeypatch):
    nam = example("three_cells")
    monkeypatch.setenv("HEADS", str(tmp_path / "nowhere"))
    assert tool("exhibit", nam, tmp_path / "made" / "exhibit")[0] == 2
    assert not (tmp_path / "made").exists()
