"""Nothing good is lost: a listing of an earlier run stays until a new output has a step."""
import os
import shutil
import subprocess

import pytest
from conftest import heads

pytestmark = pytest.mark.program


@pytest.fixture
def ran(example, tool):
    nam = example("three_cells")
    assert tool("run", nam)[0] == 0
    return nam, nam.with_suffix(".heads"), nam.with_suffix(".heads").read_text()


def files(folder):
    return sorted(f.name for f in folder.iterdir() if ".heads" in f.name)


def test_a_wrong_option_leaves_the_listing(ran, tool):
    nam, listing, text = ran
    status, out, err = tool("run", nam, "--digits", "99")
    assert status == 1 and "was left" in out and listing.read_text() == text
    assert files(nam.parent) == ["a.heads", "a.heads.end", "a.heads.run"]
    assert (nam.parent / "a.heads.end").read_text().startswith("USAGE")
    assert tool("run", nam)[0] == 0 and files(nam.parent) == ["a.heads", "a.heads.run"]


def test_a_refused_model_leaves_the_listing_and_without_one_it_is_the_output(ran, tool):
    nam, listing, text = ran
    lpf = nam.with_suffix(".lpf")
    lpf.write_text("nothing\n" + lpf.read_text())
    status, out, err = tool("run", nam)
    assert (
        status == 2 and listing.read_text() == text and (nam.parent / "a.heads.end").read_text().startswith("REFUSED")
    )
    listing.unlink()
    assert tool("run", nam)[0] == 2 and listing.read_text().startswith("REFUSED")


@pytest.fixture
def killed(tmp_path, monkeypatch):
    """A program that is killed within its first step: as where the machine has too little memory."""
    path = tmp_path / "killed"
    part = "printf 'HEADS 2 DIGITS 12 UNIT 2\\nSTEP 1 1\\nHEAD 1'"
    path.write_text(f"#!/bin/sh\n[ $1 = batch ] && echo MODEL a.nam\n{part}\nkill -9 $$\n")
    path.chmod(0o755)
    monkeypatch.setenv("HEADS", str(path))


def test_the_output_of_a_program_that_was_killed_is_no_listing(ran, tool, killed):
    nam, listing, text = ran
    status, out, err = tool("run", nam, "--quiet")
    assert status != 0 and "was left; this run's output is a.heads.end" in out and listing.read_text() == text
    listing.unlink()
    status, out, err = tool("run", nam, "--quiet")
    assert status != 0 and "\nthis run's output is a.heads.end" in out and not listing.exists()


@pytest.mark.parametrize("way", [[], ["--slurm"], ["--parallel"]])
def test_a_batch_whose_program_was_killed_leaves_listings(way, ran, tool, tmp_path, monkeypatch, killed):
    nam, listing, text = ran
    stand_in(tmp_path / "bin", monkeypatch)
    (tmp_path / "list.txt").write_text("three_cells/a.nam\n")
    status, out, err = tool("batch", tmp_path / "list.txt", *way)
    assert status != 0 and "was stopped, or a write failed" in out and listing.read_text() == text, out + err


@pytest.mark.parametrize("way", [[], ["--slurm"], ["--parallel"]])
def test_a_batch_leaves_listings_and_says_how_each_model_ended(way, ran, tool, tmp_path, monkeypatch):
    nam, listing, text = ran
    stand_in(tmp_path / "bin", monkeypatch)
    (tmp_path / "my list.txt").write_text("three_cells/a.nam\n")
    status, out, err = tool("batch", tmp_path / "my list.txt", "--digits", "99", *way)
    assert status == 1 and listing.read_text() == text, out + err
    assert "weren't taken" in out and "an earlier run" in out
    status, out, err = tool("batch", tmp_path / "my list.txt", *way)
    assert status == 0 and "a.nam: END" in out and files(nam.parent) == ["a.heads", "a.heads.run"], out + err


def stand_in(folder, monkeypatch):
    """Programs in the place of Slurm's and GNU parallel's, that run one job."""
    folder.mkdir()
    for name, text in (("sbatch", 'SLURM_ARRAY_TASK_ID=1 exec bash "$2"'), ("parallel", 'read -r NAM; one "$NAM"')):
        (folder / name).write_text(f"#!/bin/bash\n{text}\n")
        (folder / name).chmod(0o755)
    monkeypatch.setenv("PATH", str(folder), prepend=os.pathsep)


def test_gnu_parallel_runs_the_script(ran, tool, tmp_path):
    if not shutil.which("parallel"):
        pytest.skip("GNU parallel isn't here")
    nam, listing, text = ran
    listing.unlink()
    (tmp_path / "list.txt").write_text("three_cells/a.nam\n")
    assert tool("batch", tmp_path / "list.txt", "--parallel", "--write-only")[0] == 0
    subprocess.run(["bash", "list.parallel.sh"], cwd=tmp_path, check=True, capture_output=True)
    assert listing.read_text() == text


def test_heads_that_are_not_certified_leave_the_certified_listing(ran, tool, tmp_path):
    nam, listing, text = ran
    (tmp_path / "given.csv").write_text("layer,row,col,head\n1,1,2,15\n")
    assert tool("certify", nam, tmp_path / "given.csv")[0] == 0
    before = nam.with_suffix(".certified.heads").read_text()
    status, out, err = tool("certify", nam, tmp_path / "given.csv", "--theta", "0.0001", "--digits", "0")
    assert nam.with_suffix(".certified.heads").read_text() == before or status == 0, out + err
    assert (
        heads(["check", nam.name, "a.certified.heads", "--digits", "12" if status else "0"], nam.parent).returncode == 0
    )
