"""Decks in the spellings of other programs: what `inside`, `plain` and `explain` make of each."""
import numpy as np
import pytest
import spelled
from conftest import heads

ALL = list(spelled.SPELLINGS)
WANTED = {name: what for name, (_, what) in spelled.SPELLINGS.items()}
INSIDE = [name for name in ALL if WANTED[name] in ("as it is", "plain")]


def same_model(a, b):
    for name in ("delr", "delc", "top", "bottom", "ibound", "strt", "hk", "hani", "vk"):
        assert np.array_equal(getattr(a, name), getattr(b, name)), name
    storage = lambda m: m.ss * (1 if m.is_coefficient else m.thick)
    assert np.allclose(storage(a), storage(b), rtol=1e-12)
    assert set(a.deck.lists) == set(b.deck.lists) and set(a.deck.areal) == set(b.deck.areal)
    for kind, periods in a.deck.lists.items():
        assert entries(periods) == entries(b.deck.lists[kind])


def entries(periods):
    """The entries of each period; None stands for those of the period before."""
    out = []
    for now in periods:
        out.append(out[-1] if now is None else [(e.cell, [float(w) for w in e.words]) for e in now])
    return out


def test_there_are_as_many_spellings_as_promised():
    assert len(ALL) >= 48


@pytest.mark.parametrize("name", INSIDE)
def test_the_model_is_the_same_in_each_spelling(name, tmp_path):
    from heads_tools.deck.model import read_model

    same_model(
        read_model(spelled.write(tmp_path / "plain", "as it is")), read_model(spelled.write(tmp_path / "other", name))
    )


@pytest.mark.parametrize("name", INSIDE)
def test_plain_writes_the_same_model(name, tmp_path, tool):
    from heads_tools.deck.model import read_model
    from heads_tools.deck.packages import read_deck

    nam = spelled.write(tmp_path / "other", name)
    status, out, err = tool("plain", nam, tmp_path / "out")
    assert status == 0, err
    (written,) = (tmp_path / "out").glob("*.nam")
    same_model(read_model(spelled.write(tmp_path / "plain", "as it is")), read_model(written))
    assert not read_deck(written)[1].needed and f"written: {written}" in out
    assert (tmp_path / "out" / "plain.txt").read_text().strip()


@pytest.mark.program
@pytest.mark.parametrize("name", INSIDE)
def test_plain_takes_what_heads_writes_where_the_deck_is_read_as_it_is(name, tmp_path, tool):
    nam = spelled.write(tmp_path / "deck", name)
    out = tmp_path / "out"
    status, said, err = tool("plain", nam, out)
    assert status == 0, err
    if WANTED[name] == "plain":
        assert (out / "m.nam").is_file() and not (out / "p.nam").exists()
        return
    text = heads(["write", nam.name], nam.parent).stdout.replace("\n2 4 5 2 0 2\n", "\n2 4 5 2 4 2\n")
    assert (out / "p.dis").read_text().startswith("2 4 5 2 4 2\n")
    files = [line[5:] for line in text.split("\n") if line.startswith("FILE ")]
    assert text == "".join(f"FILE {file}\n{(out / file).read_text()}" for file in files) + "END\n"
    assert sorted(file.name for file in out.iterdir()) == sorted([*files, "plain.txt"])
    assert (out / "plain.txt").read_text().startswith("nothing had to be changed: these are the files of `heads write`")
    runs = [heads(["run", deck.name], deck.parent) for deck in (nam, out / "p.nam")]
    assert runs[0].returncode == 0 and runs[0].stdout == runs[1].stdout


def test_files_are_cut_out_of_a_whole_deck_that_can_be_read_again():
    from heads_tools.program import reading

    text = b"FILE p.nam\nDIS 11 p.dis\nFILE p.dis\n1 1 1\nEND\n"
    assert reading.files_of(text) == {"p.nam": b"DIS 11 p.dis\n", "p.dis": b"1 1 1\n"}
    assert not any(map(reading.files_of, (b"", b"END\n", b"REFUSED 1 MissingFile m.nam 0\n", text[:-4], text[:-1])))
    assert not reading.files_of(text.replace(b"1 1 1", b"1 -9000000000000000000 1"))
    assert not reading.files_of(text, 12)


@pytest.mark.parametrize("name", ALL)
def test_inside_says_what_is_wanted(name, tmp_path, tool):
    status, out, err = tool("inside", spelled.write(tmp_path, name))
    wanted = WANTED[name]
    if wanted == "as it is":
        assert (status, out.split("\n")[0]) == (0, "INSIDE as it is"), out + err
    elif wanted == "plain":
        assert (status, out[:29]) == (0, "INSIDE AFTER `heads-tools pla"), out + err
    else:
        assert wanted in out and (status == 1 or "CAREFUL" in out), out + err


@pytest.mark.program
@pytest.mark.parametrize("name", INSIDE)
def test_the_program_reads_what_inside_says(name, tmp_path, tool):
    status, out, err = tool("inside", spelled.write(tmp_path, name))
    assert "the program reads it" in out, out + err


@pytest.mark.program
@pytest.mark.parametrize("name", ALL)
def test_explain_has_a_sentence_for_each_end(name, tmp_path, tool):
    nam = spelled.write(tmp_path, name)
    done = heads(["run", nam.name], nam.parent)
    (tmp_path / "m.heads").write_text(done.stdout)
    status, out, err = tool("explain", tmp_path / "m.heads")
    assert status == done.returncode
    assert (done.returncode == 0) == (
        WANTED[name] == "as it is" or name == "value left out" and done.returncode == 0
    ), out
    if done.returncode:
        assert "  -> " in out and "Traceback" not in err, out


@pytest.mark.parametrize("name", [n for n in ALL if n not in INSIDE])
def test_plain_refuses_what_it_can_not_say(name, tmp_path, tool):
    nam = spelled.write(tmp_path / "deck", name)
    status, out, err = tool("plain", nam, tmp_path / "out")
    assert status == 2 and err.startswith("heads-tools: ") and not (tmp_path / "out").exists()
