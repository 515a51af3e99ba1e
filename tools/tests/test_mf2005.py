"""`tools/mf2005` beside what FloPy does with an executable: the call of `run_model`, and the reading of a head file.
Both are written here from FloPy's documented behaviour; FloPy itself isn't used."""
import os
import shutil
import subprocess

import numpy as np
import pytest
import spelled
from conftest import TOOLS, heads

from heads_tools.listing.headfile import read_heads
from heads_tools.listing.listing import read_listing
from heads_tools.deck.model import read_model

pytestmark = pytest.mark.program
SAVED = "HEAD SAVE UNIT 61\n" + "".join(f"PERIOD {p} STEP {s}\nSAVE HEAD\n" for p, s in ((1, 1), (2, 1), (2, 3)))
MORE = "DATA(BINARY) 61 m.hds REPLACE\n"


def run_model(exe_name, namefile, model_ws, normal_msg="normal termination"):
    """The executable with the name file as its one word, in the model's folder; its lines, read as they come; success
    where one of them has the words of a normal end."""
    exe = shutil.which(exe_name)
    assert exe is not None and os.path.isfile(os.path.join(model_ws, namefile))
    process = subprocess.Popen([exe, namefile], stdout=subprocess.PIPE, stderr=subprocess.STDOUT, cwd=model_ws)
    success, lines = False, []
    while True:
        line = process.stdout.readline().decode("utf-8")
        if line == "" and process.poll() is not None:
            break
        success |= normal_msg in line.lower()
        lines.append(line.rstrip("\r\n"))
    return success, lines


def head_file(path):
    """The records of a binary head file by (KSTP, KPER): PERTIM, TOTIM, and the layers' heads. The precision is the one
    in which the first record's TEXT is HEAD."""
    raw = path.read_bytes()
    for real in ("<f4", "<f8"):
        header = np.dtype(
            [("kstp", "<i4"), ("kper", "<i4"), ("pertim", real), ("totim", real), ("text", "S16")]
            + [(name, "<i4") for name in ("ncol", "nrow", "ilay")]
        )
        if np.frombuffer(raw, header, 1)["text"][0].strip() == b"HEAD":
            break
    out, at = {}, 0
    while at < len(raw):
        record = np.frombuffer(raw, header, 1, at)[0]
        assert record["text"] == b"            HEAD"
        at += header.itemsize
        size = record["ncol"] * record["nrow"]
        layer = np.frombuffer(raw, real, size, at).reshape(record["nrow"], record["ncol"])
        at += size * layer.itemsize
        times = (float(record["pertim"]), float(record["totim"]))
        key = (int(record["kstp"]), int(record["kper"]))
        out.setdefault(key, (times, []))[1].append((int(record["ilay"]), layer))
    return out


@pytest.fixture
def model(tmp_path):
    nam = spelled.write(tmp_path, "as it is")
    nam.write_text(nam.read_text() + MORE)
    (tmp_path / "m.oc").write_text(SAVED)
    return nam


def test_flopy_runs_it_as_an_executable_and_reads_its_heads(model):
    success, lines = run_model(str(TOOLS / "mf2005"), model.name, str(model.parent))
    assert success, lines
    assert sum("Solving:" in line for line in lines) == 4
    records, deck = head_file(model.parent / "m.hds"), read_model(model)
    listing = read_listing(model.parent / "m.heads")
    assert sorted(records) == [(1, 1), (1, 2), (3, 2)]
    lower, upper = listing.lower(deck.shape), listing.upper(deck.shape)
    for at, step in enumerate(listing.steps):
        if (step.step, step.period) not in records:
            continue
        (pertim, totim), layers = records[step.step, step.period]
        assert (pertim, totim) == pytest.approx(deck.times[step.period, step.step])
        assert [number for number, _ in layers] == [1, 2]
        grid = np.array([layer for _, layer in layers])
        middle = np.where(np.isnan(lower[at]), -999.99, (lower[at] + upper[at]) / 2)
        assert np.allclose(grid, middle, rtol=1e-7)


def test_flopy_sees_that_a_run_did_not_end_well(model):
    (model.parent / "m.wel").write_text("1 53\n1 0\n2 2 9 -50\n-1 0\n")
    success, lines = run_model(str(TOOLS / "mf2005"), model.name, str(model.parent))
    assert not success and any("outside the grid" in line for line in lines), lines
    assert not (model.parent / "m.hds").exists()


def test_the_listing_beside_the_head_file_is_that_of_the_program(model):
    run_model(str(TOOLS / "mf2005"), model.name, str(model.parent))
    ran = heads(["run", model.name], model.parent).stdout
    assert (model.parent / "m.heads").read_text() == ran


def test_called_as_modflow_it_writes_head_and_list_files(example):
    nam = example("tide")
    text = nam.read_text()
    nam.write_text(text + "LIST 2 m.list\nOC 60 m.oc\nDATA(BINARY) 61 m.hds\n")
    (nam.parent / "m.oc").write_text("HEAD SAVE UNIT 61\nPERIOD 1 STEP 1\nSAVE HEAD\nPERIOD 1 STEP 2\nPRINT HEAD\n")
    done = subprocess.run([TOOLS / "mf2005", nam.name], cwd=nam.parent, capture_output=True, text=True)
    assert done.returncode == 0 and "normal termination" in done.stdout.lower(), done.stdout + done.stderr
    saved, listing = read_heads(nam.parent / "m.hds"), read_listing(nam.parent / "m.heads")
    assert list(saved) == [(1, 1)]
    lower, upper = listing.lower()[0], listing.upper()[0]
    known = ~np.isnan(lower)
    assert np.allclose(saved[1, 1][known], ((lower + upper) / 2)[known], rtol=1e-6)
    said = (nam.parent / "m.list").read_text()
    assert (
        said.count("VOLUMETRIC BUDGET FOR ENTIRE MODEL AT END OF TIME STEP") == len(listing.steps)
        and "PERCENT DISCREPANCY" in said
    )
    (nam.parent / "m.oc").write_text("0 0 61 0\n" + "0 0 0 0\n0 0 1 0\n" * len(listing.steps))
    assert subprocess.run([TOOLS / "mf2005", nam.stem], cwd=nam.parent, capture_output=True).returncode == 0
    assert len(read_heads(nam.parent / "m.hds")) == len(listing.steps)


def test_called_as_modflow_it_reads_other_spellings_and_ends_badly_where_it_must(tmp_path, example):
    nam = spelled.write(tmp_path / "deck", "modflow 96 columns")
    done = subprocess.run([TOOLS / "mf2005", nam.name], cwd=nam.parent, capture_output=True, text=True)
    assert done.returncode == 0 and "normal termination" in done.stdout.lower(), done.stdout + done.stderr
    nam = example("no_answer")
    done = subprocess.run([TOOLS / "mf2005", nam.name], cwd=nam.parent, capture_output=True, text=True)
    assert (
        done.returncode == 3
        and "normal termination" not in done.stdout.lower()
        and "Nothing holds the heads" in done.stdout
    )


def outputs(model):
    return {name: (model.parent / name).read_bytes() for name in ("m.hds", "m.list") if (model.parent / name).exists()}


@pytest.fixture
def listed(model):
    model.write_text(model.read_text() + "LIST 2 m.list\n")
    assert run_model(str(TOOLS / "mf2005"), model.name, str(model.parent))[0]
    assert len(outputs(model)) == 2
    return model


def test_a_run_without_an_answer_leaves_no_outputs_of_the_run_before(listed):
    (listed.parent / "m.wel").write_text("1 53\n1 0\n2 2 9 -50\n-1 0\n")
    success, lines = run_model(str(TOOLS / "mf2005"), listed.name, str(listed.parent))
    said = (listed.parent / "m.list").read_text()
    assert not success and not (listed.parent / "m.hds").exists()
    assert "THE RUN DID NOT END WELL" in said and "REFUSED" in said and "outside the grid" in said
    assert "VOLUMETRIC BUDGET" not in said and "Run end" not in said and "Normal termination" not in said


def test_a_run_that_cannot_be_written_leaves_no_outputs_of_the_run_before(listed):
    """A folder has the listing's name."""
    (listed.parent / "m.heads").unlink()
    (listed.parent / "m.heads").mkdir()
    success, lines = run_model(str(TOOLS / "mf2005"), listed.name, str(listed.parent))
    assert not success and not (listed.parent / "m.hds").exists(), lines
    assert "m.heads is a folder; a file is due here" in (listed.parent / "m.list").read_text()


def test_outputs_of_modflow_itself_are_kept_under_another_name(listed):
    for name, text in (("m.hds", b"heads of MODFLOW"), ("m.list", b"list of MODFLOW"), ("m.cbc", b"flows of MODFLOW")):
        (listed.parent / name).write_bytes(text)
    listed.write_text(listed.read_text() + "DATA(BINARY) 53 m.cbc REPLACE\n")
    for _ in range(2):
        success, lines = run_model(str(TOOLS / "mf2005"), listed.name, str(listed.parent))
        assert success, lines
    kept = {f.name: f.read_bytes() for f in listed.parent.glob("*.before*")}
    assert kept == {
        "m.hds.before": b"heads of MODFLOW",
        "m.list.before": b"list of MODFLOW",
        "m.cbc.before": b"flows of MODFLOW",
    }
    assert not (listed.parent / "m.cbc").exists(), "no flows of another run are read for this one's"


def test_an_output_that_is_a_file_of_the_deck_too_is_refused(model):
    before = (model.parent / "m.wel").read_bytes()
    model.write_text(model.read_text().replace("m.hds REPLACE", "m.wel REPLACE"))
    success, lines = run_model(str(TOOLS / "mf2005"), model.name, str(model.parent))
    assert not success and any("names it as a file of the deck, too" in line for line in lines), lines
    assert (model.parent / "m.wel").read_bytes() == before
