"""MODFLOW 6's confined models as decks: the same equations."""
import struct
from fractions import Fraction

import pytest

from conftest import TOP, heads
from heads_tools.deck.dates import start_of
from heads_tools.deck.packages import read_deck
from heads_tools.deck.places import named_place
from modflow6_base import BASE, LAYERS, OPTION, RECHARGE, put
from modflow6_models import Draw
from modflow6_solved import solution
from modflow6_written import written_as_modflow6


def pairs(text):
    """The pairs of a listing, by (period, step) and cell."""
    out, now = {}, None
    for words in map(str.split, text.splitlines()):
        if words[:1] == ["STEP"]:
            now = int(words[1]), int(words[2])
        if words[:1] == ["HEAD"]:
            out[now, tuple(map(int, words[1:4]))] = Fraction(words[4]), Fraction(words[5])
    return out


def outside(tmp_path, tool, seeds, is_line=False):
    """Of random models: how many were solved, how many exact heads were looked up, and those outside of their pairs."""
    models, looked, out = 0, 0, []
    for seed in seeds:
        folder = tmp_path / str(seed)
        folder.mkdir()
        model = Draw(seed, folder, is_line).draw()
        status, said, error = tool("plain", folder / "mfsim.nam", folder / "deck")
        assert status == 0, (seed, said, error)
        text = heads(["run", "p.nam", "--digits", "9"], folder / "deck").stdout
        exact = solution(model)
        if exact is None or text.splitlines()[-1] != "END":
            continue
        listed = pairs(text)
        models, looked = models + 1, looked + len(listed)
        assert len(listed) == sum(map(len, exact.values())), seed
        for step, by_cell in exact.items():
            for c, head in by_cell.items():
                k, rest = divmod(c, model.layer)
                low, high = listed[step, (k + 1, rest // model.cols + 1, rest % model.cols + 1)]
                out += [(seed, step, c)] * (not low <= head <= high)
    return models, looked, out


@pytest.mark.program
def test_exact_heads_of_random_simulations_lie_between_those_of_their_decks(tmp_path, tool):
    models, looked, out = outside(tmp_path, tool, range(40))
    assert models >= 36 and looked > 1000 and out == []


@pytest.mark.program
def test_where_flow_goes_one_way_alone_the_other_conductivity_counts_nowhere(tmp_path, tool):
    """Models of one row or one column, with K22 over K mostly no decimal."""
    models, looked, out = outside(tmp_path, tool, range(1000, 1020), is_line=True)
    assert models >= 18 and looked > 300 and out == []
    notes = [(tmp_path / str(seed) / "deck" / "plain.txt").read_text() for seed in range(1000, 1020)]
    assert sum("written with HANI 1" in text for text in notes) > 10


@pytest.mark.program
def test_each_change_is_named(tmp_path, tool):
    changes = {
        "m.nam": ("END P", " OC6 m.oc\n WEL6 more.wel\nEND P"),
        "m.npf": ("BEGIN GRID", OPTION.format("REWET WETFCT 1 IWETIT 1 IHDWET 0") + "BEGIN GRID"),
        "m.dis": ("IDOMAIN\n CONSTANT 1", LAYERS.format(-1, 1, 1)),
        "m.chd": ("1 1 1 25.", "2 1 1 25."),
        "more.wel": BASE["m.wel"].replace("-10.", "-5."),
    }
    status, _, error = tool("plain", put(tmp_path / "m", changes), tmp_path / "deck")
    assert (status, error) == (0, "")
    notes = (tmp_path / "deck" / "plain.txt").read_text().splitlines()
    assert notes[0].startswith("mfsim.nam: a MODFLOW 6 simulation written as a MODFLOW-2005 deck. No theorem speaks")
    begins = "m.nam, line 8: OC6 dropped", "m.dis, line 18: IDOMAIN below 0 written as 0"
    for begin in (*begins, "m.npf, line 2: REWET dropped", "m.nam, line 9: 2 packages WEL6 joined into one list"):
        assert any(note.startswith(begin) for note in notes)
    assert (tmp_path / "deck" / "p.wel").read_text().splitlines()[-4:] == ["2 0", "2 1 2 -10.", "2 1 2 -5.", "-1 0"]


def notes_of(tmp_path, tool, changes):
    """The notes of a translation that is written."""
    status, _, error = tool("plain", put(tmp_path / "m", changes), tmp_path / "deck")
    assert (status, error) == (0, "")
    return (tmp_path / "deck" / "plain.txt").read_text().splitlines()


@pytest.mark.program
def test_the_place_and_the_date_become_a_comment_that_export_takes(tmp_path, tool):
    options = "XORIGIN 155000.\n YORIGIN 463000.\n ANGROT 12.\n CRS EPSG:28992"
    changes = {
        "m.dis": ("BEGIN DIM", OPTION.format(options) + "BEGIN DIM"),
        "m.tdis": ("BEGIN DIM", OPTION.format("START_DATE_TIME 2024-01-02T00:00") + "BEGIN DIM"),
    }
    notes = notes_of(tmp_path, tool, changes)
    assert any("XORIGIN written as a comment of the deck's name file" in note for note in notes)
    nam = tmp_path / "deck" / "p.nam"
    place, _ = named_place(read_deck(nam)[0])
    assert (place.x, place.y, place.angle, place.epsg) == (155000, 463000, 12, 28992)
    assert start_of(None, nam).isoformat() == "2024-01-02"


@pytest.mark.program
def test_recharge_of_a_cell_is_summed_over_entries_and_packages(tmp_path, tool):
    entries = "BEGIN DIMENSIONS\n MAXBOUND 2\nEND DIMENSIONS\nBEGIN PERIOD 1\n 1 1 2 .001\n 1 1 2 .0005\nEND PERIOD\n"
    changes = {"m.nam": ("END P", " RCH6 m.rch\n RCH6 n.rch\nEND P"), "m.rch": entries, "n.rch": RECHARGE}
    notes = notes_of(tmp_path, tool, changes)
    assert any(note.startswith("m.nam, line 9: 2 packages RCH6 joined into one") for note in notes)
    lines = (tmp_path / "deck" / "p.rch").read_text().splitlines()
    assert [Fraction(word) for word in lines[3].split()] == [Fraction(x, 10000) for x in (10, 25, 10)]


@pytest.mark.program
def test_recharge_on_columns_without_flow_is_left_out_with_a_note(tmp_path, tool):
    changes = {
        "m.nam": ("END P", " RCH6 m.rch\nEND P"),
        "m.rch": RECHARGE,
        "m.dis": ("IDOMAIN\n CONSTANT 1", "IDOMAIN\n INTERNAL\n 1 1 0 1 1 0 1 1 0"),
        "m.chd": ("3 1 3 24.", "3 1 2 24."),
    }
    notes = notes_of(tmp_path, tool, changes)
    assert any(note.startswith("m.rch, line 6: RECHARGE in columns of layers without flow dropped") for note in notes)
    words = (tmp_path / "deck" / "p.rch").read_text().splitlines()[3].split()
    assert [float(word) for word in words] == [0.001, 0.001, 0]


@pytest.mark.program
def test_blocks_and_arrays_of_other_files_are_read_from_the_simulations_folder(tmp_path, tool):
    (tmp_path / "m" / "data").mkdir(parents=True)
    (tmp_path / "m" / "data" / "w.txt").write_text("# wells\n 2 1 2 -10. # the one\n")
    (tmp_path / "m" / "data" / "k.txt").write_text("1 2 3 4 5\n6 7 8 9\n10\n")
    changes = {
        "m.nam": ("WEL6 m.wel", "WEL6 data\\m.wel"),
        "m.npf": (" K\n CONSTANT 3", " K\n OPEN/CLOSE 'data/k.txt' factor 2 # doubled"),
        "data/m.wel": BASE["m.wel"].replace("2 1 2 -10.", "OPEN/CLOSE data/w.txt"),
    }
    notes = notes_of(tmp_path, tool, changes)
    assert any(note.startswith("CAREFUL: data/k.txt, line 3: more lines follow than K has values") for note in notes)
    assert (tmp_path / "deck" / "p.wel").read_text().splitlines()[-2] == "2 1 2 -10."
    assert "14 16 18" in (tmp_path / "deck" / "p.lpf").read_text()


@pytest.mark.program
@pytest.mark.parametrize("name", ("river_valley/m", "pumping_test/m", "drained_field/m", "pumping_plans/one_well"))
def test_an_example_written_as_modflow_6_and_back_has_the_same_listing(tmp_path, tool, name):
    nam = (TOP / "examples" / name).with_suffix(".nam")
    written_as_modflow6(nam, tmp_path / "mf6")
    status, _, error = tool("plain", tmp_path / "mf6" / "mfsim.nam", tmp_path / "deck")
    assert (status, error) == (0, "")
    assert heads(["run", "p.nam"], tmp_path / "deck").stdout == heads(["run", nam.name], nam.parent).stdout


def test_the_translation_goes_into_a_folder_of_its_own(tmp_path, tool):
    nam = put(tmp_path / "m", {"m.nam": ("m.ic", "more/p.ic")})
    (tmp_path / "m" / "more").mkdir()
    (tmp_path / "m" / "m.ic").rename(tmp_path / "m" / "more" / "p.ic")
    before = {path: path.read_bytes() for path in nam.parent.rglob("*") if path.is_file()}
    for folder in (nam.parent, nam.parent / "more"):
        status, _, error = tool("plain", nam, folder)
        assert status == 2 and "another folder" in error
    assert before == {path: path.read_bytes() for path in nam.parent.rglob("*") if path.is_file()}


@pytest.mark.program
def test_modflow_6_heads_are_read_by_compare_and_certify(tmp_path, tool):
    nam = put(tmp_path / "m", {"m.dis": ("IDOMAIN\n CONSTANT 1", "IDOMAIN\n INTERNAL\n 1 1 1 1 1 1 0 1 1")})
    assert tool("plain", nam, tmp_path / "deck")[0] == 0
    deck = tmp_path / "deck" / "p.nam"
    text = heads(["run", "p.nam"], deck.parent).stdout
    (deck.parent / "p.heads").write_text(text)
    content = b""
    steps = sorted({step for step, _ in pairs(text)})
    for period, step in steps:
        for layer in (1, 2, 3):
            content += struct.pack("<2i2d16s3i", step, period, 1.0, 1.0, b"            HEAD", 3, 1, layer)
            for col in (1, 2, 3):
                low, high = pairs(text).get(((period, step), (layer, 1, col)), (10**30, 10**30))
                content += struct.pack("<d", float(low + high) / 2)
    content = content.replace(struct.pack("<d", 1e30), struct.pack("<d", -1e30), 1)
    (tmp_path / "gwf.hds").write_bytes(content)
    status, out, error = tool("compare", deck.parent / "p.heads", tmp_path / "gwf.hds")
    assert status == 0 and error == "" and f"in {len(steps)} steps in all: off by at least 0 " in out
    assert "0 of 8 cells lie outside" in out
    status, out, _ = tool("certify", deck, tmp_path / "gwf.hds", "--out", tmp_path / "c.heads")
    assert status == 0 and (tmp_path / "c.heads").is_file()


@pytest.mark.program
def test_heads_of_another_kind_of_grid_are_no_heads_of_these_cells(example, tool, tmp_path):
    """DISV saves a layer as one row, DISU all cells as one."""
    nam = example("river_valley")
    assert tool("run", nam)[0] == 0
    content = struct.pack("<2i2d16s3i600d", 1, 1, 1.0, 1.0, b"            HEAD", 600, 1, 1, *[7.0] * 600)
    (tmp_path / "disv.hds").write_bytes(content)
    for more in ([], ["--name", nam]):
        status, out, error = tool("compare", nam.with_suffix(".heads"), tmp_path / "disv.hds", *more)
        assert (status, out) == (2, "") and "another grid" in error
