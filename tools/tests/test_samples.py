"""Decks as FloPy, ModelMuse, MODFLOW-2000 and hand editors write them: after `plain` each has the listing of the deck
that it means."""
from fractions import Fraction

import pytest
import recheck
import sampled
import spelled
from conftest import heads
from sampled_pairs import PAIRS

REFUSED = [name for name, (_, due) in sampled.SAMPLES.items() if due not in ("as it is", "plain")]
TAKEN = [name for name in sampled.SAMPLES if name not in REFUSED]


def written(folder, change):
    """The name file of the deck of spelled.py with a change."""
    for name, text in (spelled.PLAIN | change(spelled.PLAIN)).items():
        path = folder / name
        path.parent.mkdir(parents=True, exist_ok=True)
        path.write_bytes(text if isinstance(text, bytes) else text.encode("latin-1"))
    return folder / "m.nam"


def run(nam):
    return heads(["run", nam.name], nam.parent).stdout


@pytest.fixture(scope="module")
def listing(tmp_path_factory):
    return run(spelled.write(tmp_path_factory.mktemp("plain"), "as it is"))


@pytest.mark.program
@pytest.mark.parametrize("name", TAKEN)
def test_a_sample_has_the_listing_of_the_deck_that_it_means(name, tmp_path, tool, listing):
    change, due = sampled.SAMPLES[name]
    nam = written(tmp_path / "deck", change)
    status, _, err = tool("plain", nam, tmp_path / "out")
    assert status == 0, err
    assert run(next((tmp_path / "out").glob("*.nam"))) == listing and listing.endswith("END\n")
    assert due == "plain" or run(nam) == listing


@pytest.mark.parametrize("name", REFUSED)
def test_a_sample_that_says_more_is_refused_with_its_reason(name, tmp_path, tool):
    change, due = sampled.SAMPLES[name]
    status, out, err = tool("plain", written(tmp_path / "deck", change), tmp_path / "out")
    assert status == 2 and due in err and not (tmp_path / "out").exists()


@pytest.mark.program
@pytest.mark.parametrize("name", PAIRS)
def test_a_sample_of_another_model_has_the_listing_of_its_plain_deck(name, tmp_path, tool):
    spelling, meaning = PAIRS[name]
    status, _, err = tool("plain", written(tmp_path / "deck", spelling), tmp_path / "out")
    assert status == 0, err
    due = run(written(tmp_path / "meant", meaning))
    assert run(next((tmp_path / "out").glob("*.nam"))) == due and due.endswith("END\n")


SECTION = {
    "a.nam": "DIS 11 a.dis\nBAS6 12 a.bas\nLPF 13 a.lpf\nWEL 14 a.wel\n",
    "a.dis": (
        "2 1 3 1 4 2\n0 0\nCONSTANT 100\nINTERNAL 10 (FREE) -1\n5\nCONSTANT 20\nCONSTANT 10\nCONSTANT 0\n1 1 1 SS\n"
    ),
    "a.lpf": "0 -1E+30 0\n0 0\n0 0\n1 1\n0 0\n0 0\n" + "CONSTANT 2\nCONSTANT 0.5\n" * 2,
    "a.wel": "1 0\n1 0\n2 1 2 -7\n",
}
BY_LAYERS = (
    "FREE\nINTERNAL 1 (FREE) -1\n-1 1 1\nINTERNAL 1 (FREE) -1\n1 1 -1\n0\n"
    "INTERNAL 0.5 (FREE) -1\n40 0 0\nINTERNAL 0.5 (FREE) -1\n0 0 50\n"
)
AS_SECTION = "FREE XSECTION\nINTERNAL 1 (FREE) -1\n-1 1 1\n1 1 -1\n0\nINTERNAL 0.5 (FREE) -1\n40 0 0\n0 0 50\n"


def section(folder, bas):
    folder.mkdir()
    for name, text in (SECTION | {"a.bas": bas}).items():
        (folder / name).write_text(text)
    return folder / "a.nam"


@pytest.mark.program
def test_a_cross_section_has_one_array_for_all_layers(tmp_path, tool):
    assert tool("plain", section(tmp_path / "deck", AS_SECTION), tmp_path / "out")[0] == 0
    listing = run(tmp_path / "out" / "a.nam")
    assert listing == run(section(tmp_path / "layers", BY_LAYERS)) and listing.endswith("END\n")
    assert "XSECTION" in (tmp_path / "out" / "plain.txt").read_text()


def test_a_cross_section_of_two_rows_is_refused(tmp_path, tool):
    nam = section(tmp_path / "deck", AS_SECTION)
    (nam.parent / "a.dis").write_text(SECTION["a.dis"].replace("2 1 3", "2 2 3").replace("5\n", "5 5\n"))
    status, _, err = tool("plain", nam, tmp_path / "out")
    assert status == 2 and "XSECTION (MODFLOW reads the word after a # too) is for one row, and the grid has 2" in err


def test_an_array_of_one_cell_keeps_its_factor(tmp_path, tool, monkeypatch):
    """One row: DELC has one value, here 10 times 5."""
    nam = section(tmp_path / "deck", BY_LAYERS)
    (nam.parent / "a.nam").write_text(SECTION["a.nam"] + "LMG 20 a.lmg\n")
    assert tool("plain", nam, tmp_path / "out")[0] == 0
    monkeypatch.chdir(tmp_path / "out")
    assert recheck.Model("a.nam").delc == [Fraction(50)]
    from heads_tools.deck.model import read_model

    assert read_model(nam).delc.tolist() == [50.0]


def test_a_long_parameter_of_a_constant_multiplier_is_refused(tmp_path, tool):
    """1.234567891 squared has 19 digits, which no deck says; the multiplier alone would be another model."""
    change = spelled.both(
        sampled.lpf("a HK 1.234567891 1\n1 m ALL\nb HK 4 1\n2 NONE ALL\n"),
        spelled.more(m_mlt="1\nm\nCONSTANT 1.234567891\n"),
        sampled.named("MULT 40 m.mlt"),
    )
    status, _, err = tool("plain", written(tmp_path / "deck", change), tmp_path / "out")
    assert status == 2 and "m.lpf, line 11" in err and "no deck says it exactly" in err


@pytest.mark.parametrize("auxiliary, entry", [("", (2, 2, 3, -50, 0)), (" AUX IFACE", (2, 2, 3, -50))])
def test_a_binary_list_of_another_size_is_refused(auxiliary, entry, tmp_path, tool):
    text = f"1 53{auxiliary}\n1 0\nOPEN/CLOSE w.bin (BINARY)\n-1 0\n"
    nam = written(tmp_path / "deck", lambda _: {"m.wel": text, "w.bin": sampled.binary_list(entry)})
    status, _, err = tool("plain", nam, tmp_path / "out")
    assert status == 2 and f"w.bin has {4 * len(entry)} bytes for a binary list of 1 entries" in err
