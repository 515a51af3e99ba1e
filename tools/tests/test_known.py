"""The models of examples/known: exact answers lie within their pairs, published ones near them."""
import subprocess
import sys

import pytest
from conftest import TOP

KNOWN = TOP / "examples" / "known"
QUICK = ["first_tutorial", "strip_recharge", "leaky_strip", "island", "toth"]


def test_the_decks_are_those_that_the_script_writes(tmp_path):
    subprocess.run([sys.executable, KNOWN / "write_known.py", tmp_path], check=True)
    files = sorted(f.relative_to(tmp_path) for f in tmp_path.rglob("*") if f.is_file())
    assert len(files) > 50
    for file in files:
        assert (tmp_path / file).read_bytes() == (KNOWN / file).read_bytes(), file


@pytest.mark.program
@pytest.mark.parametrize("name", QUICK)
def test_known_answers_lie_where_they_have_to_be(name, tool, tmp_path):
    for file in (KNOWN / name).iterdir():
        if file.suffix != ".heads":
            (tmp_path / file.name).write_bytes(file.read_bytes())
    status, out, err = tool("run", tmp_path / "m.nam")
    assert status == 0, out
    done = subprocess.run([sys.executable, KNOWN / "compare_known.py", tmp_path], capture_output=True, text=True)
    assert done.returncode == 0, done.stdout


def test_all_known_models_are_inside(tool):
    for nam in sorted(KNOWN.glob("*/m.nam")):
        status, out, err = tool("model", nam)
        assert status == 0, err
